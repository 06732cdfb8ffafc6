//! What C callers may do with pointers: NULL with length 0, and operands that share their limbs.

use crate::checker::Checker;
use crate::outputs::Shape;
use quebralua_reference::call::LimbCall;
use quebralua_reference::operation::Operation;
use quebralua_reference::reference::width::WIDTHS;

pub fn run(checker: &mut Checker) {
    for operation in Operation::ALL {
        null(checker, operation);
        shared(checker, operation);
    }
}

/// No limb, which the binding passes as NULL, at each operand and at the output buffer.
fn null(checker: &mut Checker, operation: Operation) {
    let limbs: &[u32] = &[0x1234_5678, 0x9ABC_DEF0];
    let taken = operation.operands();
    for empty in 0..1 << taken {
        let operands: Vec<&[u32]> = (0..taken).map(|i| if (empty >> i) & 1 == 1 { &[] } else { limbs }).collect();
        for numbers in [[0; 3], [1; 3], [-1; 3]] {
            let mut call = LimbCall::new(operation, &operands, &numbers[..operation.numbers()]);
            call.width = *WIDTHS.start();
            if operation.writes() {
                checker.write(&call, Shape::Empty);
                checker.write(&call, Shape::Exact);
            } else {
                checker.value(&call);
            }
        }
    }
}

/// The same limbs at every operand, and parts of them.
fn shared(checker: &mut Checker, operation: Operation) {
    let limbs: Vec<u32> = (0..8).map(|_| checker.random.next_u32()).collect();
    let parts: [&[u32]; 3] = [&limbs, &limbs[2..], &limbs[..5]];
    for operands in [[parts[0]; 3], parts] {
        let mut call = LimbCall::new(operation, &operands[..operation.operands()], &[3; 3][..operation.numbers()]);
        call.width = *WIDTHS.end();
        checker.any(&call);
    }
}
