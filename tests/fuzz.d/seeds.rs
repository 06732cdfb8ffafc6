//! Writes random rules that are accepted, as many as are asked for, into a directory: one to a file, after sixteen bytes
//! that choose the inputs.

use quebralua_reference::random::Random;
use quebralua_reference::random_arguments::rule::accepted;
use std::env::args;
use std::fs::write;
use std::path::Path;

fn main() {
    let args: Vec<String> = args().collect();
    let [_, directory, amount] = &args[..] else {
        panic!("usage: seeds DIRECTORY AMOUNT");
    };
    let amount: u64 = amount.parse().expect("the amount is a number");
    let mut random = Random::new(1);
    for number in 0..amount {
        let mut bytes: Vec<u8> = (0..16).map(|_| random.next_u32() as u8).collect();
        bytes.extend(accepted(&mut random).bytes);
        write(Path::new(directory).join(number.to_string()), bytes).expect("the seed can be written");
    }
}
