//! Makes calls through the library and compares each answer, and the whole output buffer, with the second
//! implementation. A difference ends the program.

use crate::binding::{FixnumAnswer, Value, Written};
use crate::buffer::Buffer;
use crate::library::{call_fixnum, call_value, call_write};
use crate::options::Options;
use crate::outputs::{output, Shape, TOO_SHORT, WITH_ROOM};
use crate::report::difference;
use crate::tally::Tally;
use crate::whole_words;
use quebralua_reference::call::{FixnumCall, LimbCall};
use quebralua_reference::random::Random;
use quebralua_reference::reference::fixnum::{fixnum, Answer};
use quebralua_reference::reference::output::write;

/// Limbs on either side of an output buffer, which no call may change.
const GUARD: usize = 8;

pub struct Checker {
    pub tally: Tally,
    pub random: Random,
    /// How many calls of the library were made.
    pub made: u64,
    edges_every: u64,
    guard: usize,
    trace: bool,
}

impl Checker {
    pub fn new(options: &Options) -> Checker {
        Checker {
            tally: Tally::new(),
            random: Random::new(options.seed),
            made: 0,
            edges_every: options.edges_every,
            guard: if options.no_guards { 0 } else { GUARD },
            trace: options.trace,
        }
    }

    pub fn fixnum(&mut self, call: FixnumCall) -> FixnumAnswer {
        let Answer { refusal, first, second, place } = fixnum(call.width, call.code, call.args, call.count);
        let expected = FixnumAnswer { refusal, first, second, place };
        let got = self.ask(&call);
        if got != expected {
            difference(&call.as_c(), &format!("{expected:?}"), &format!("{got:?}"));
        }
        self.tally.fixnum(&call, refusal, place);
        got
    }

    /// The library's answer alone.
    pub fn ask(&mut self, call: &FixnumCall) -> FixnumAnswer {
        self.begin(|| call.as_c());
        let got = call_fixnum(call);
        whole_words::check(call.width, got.refusal, || call.as_c());
        got
    }

    pub fn value(&mut self, call: &LimbCall) -> Value {
        let expected = match call.value() {
            Ok(value) => Value { refusal: 0, value },
            Err(refusal) => Value { refusal, value: 0 },
        };
        self.begin(|| call.as_c(None));
        let got = call_value(call);
        if got != expected {
            difference(&call.as_c(None), &format!("{expected:?}"), &format!("{got:?}"));
        }
        self.tally.limbs(call, expected.refusal);
        got
    }

    /// Makes the call on an output buffer of that shape. The result's limbs, if it is done.
    pub fn write(&mut self, call: &LimbCall, shape: Shape) -> Option<Vec<u32>> {
        self.write_expecting(call, &call.result(), shape)
    }

    fn write_expecting(&mut self, call: &LimbCall, result: &Result<Vec<u32>, u64>, shape: Shape) -> Option<Vec<u32>> {
        let length = result.as_ref().map_or(1, |limbs| limbs.len());
        let output = output(shape, length, &mut self.random);
        self.begin(|| call.as_c(Some(&output)));
        let mut expected_buffer = Buffer::new(&output.limbs, self.guard);
        let mut buffer = expected_buffer.clone();
        let expected = match write(result, expected_buffer.inside(), output.first) {
            Ok(length) => Written { refusal: 0, length },
            Err(refusal) => Written { refusal, length: 0 },
        };
        let got = call_write(call, buffer.inside(), output.first);
        whole_words::check(call.width, got.refusal, || call.as_c(Some(&output)));
        if got != expected || buffer != expected_buffer {
            let [expected, got] = [(expected, expected_buffer), (got, buffer)].map(|(w, b)| format!("{w:?} {b}"));
            difference(&call.as_c(Some(&output)), &expected, &got);
        }
        self.tally.limbs(call, expected.refusal);
        let first = output.first as usize;
        got.result().ok().map(|length| buffer.inside()[first..first + length].to_vec())
    }

    /// The library's answer to a call that writes nothing, alone.
    pub fn ask_value(&mut self, call: &LimbCall) -> Value {
        self.begin(|| call.as_c(None));
        call_value(call)
    }

    /// What the library writes where there is room for that many limbs, or its refusal.
    pub fn ask_write(&mut self, call: &LimbCall, room: usize) -> Result<Vec<u32>, u64> {
        self.begin(|| call.as_c(None));
        let first = self.random.below(3) as usize;
        let mut out = vec![self.random.next_u32(); first + room];
        let Written { refusal, length } = call_write(call, &mut out, first as u64);
        match refusal {
            0 => Ok(out[first..first + length as usize].to_vec()),
            _ => Err(refusal),
        }
    }

    /// A fixnum call that is one of the edges.
    pub fn edge_fixnum(&mut self, call: FixnumCall) {
        if self.is_chosen() {
            self.fixnum(call);
        }
    }

    /// A limb call that is one of the edges: on one output buffer with room and one too short, of random shapes.
    pub fn edge(&mut self, call: &LimbCall) {
        if !self.is_chosen() {
            return;
        }
        if !call.operation.writes() {
            self.value(call);
            return;
        }
        let result = call.result();
        for shapes in [&WITH_ROOM[..], &TOO_SHORT] {
            let shape = self.random.choose(shapes);
            self.write_expecting(call, &result, shape);
        }
    }

    /// A limb call that is one of the edges, on output buffers of every shape.
    pub fn edge_all_shapes(&mut self, call: &LimbCall) {
        if !call.operation.writes() {
            return self.edge(call);
        }
        let result = call.result();
        for shape in WITH_ROOM.into_iter().chain(TOO_SHORT) {
            if self.is_chosen() {
                self.write_expecting(call, &result, shape);
            }
        }
    }

    /// Any call that writes limbs or answers a value, on an output buffer of a random shape.
    pub fn any(&mut self, call: &LimbCall) {
        if !call.operation.writes() {
            self.value(call);
            return;
        }
        let shapes: &[Shape] = if self.random.one_in(4) { &TOO_SHORT } else { &WITH_ROOM };
        let shape = self.random.choose(shapes);
        self.write(call, shape);
    }

    /// Whether what a call may change stands between guards, and has no allocation of its own.
    pub fn has_guards(&self) -> bool {
        self.guard > 0
    }

    /// Whether an edge is to be compared, where not all of them are.
    pub fn is_chosen(&mut self) -> bool {
        self.edges_every == 1 || self.random.one_in(self.edges_every)
    }

    /// From one chosen edge to the next, where they are numbered: 1 if all of them are compared.
    pub fn next_chosen(&mut self) -> u64 {
        1 + self.random.below(2 * self.edges_every - 1)
    }

    /// Counts a call that is about to be made, and prints it if that was asked for.
    pub fn begin(&mut self, call: impl FnOnce() -> String) {
        self.made += 1;
        if self.trace {
            println!("{}", call());
        }
    }
}
