//! An image with its working record, and a call on them.

use super::calls::{self, Outcome, Refusal};
use super::image::{Power, Step, BLOCK};
use super::list::{Call, Data};
use super::pages::{ERASED, PAYLOAD};
use super::record::{Record, SCRATCH};

/// An image with its working record.
#[derive(Clone, PartialEq, Eq)]
pub struct Store {
    /// The image.
    pub image: Vec<u8>,
    /// The record.
    pub record: Record,
}

impl Store {
    /// A store of so many blocks, formatted with this noise.
    pub fn formatted(blocks: usize, noise: Data) -> Store {
        let mut store = Store { image: vec![ERASED; BLOCK * blocks], record: Record::blank() };
        let reply = store.format(noise, Power::STAYS);
        assert_eq!(reply, calls::DONE, "a format of {blocks} blocks");
        store
    }

    /// Formats the image. Gives the reply.
    pub fn format(&mut self, noise: Data, power: Power) -> u32 {
        let Record { map, letters, numbers } = &mut self.record;
        let (reply, new) = calls::format(&mut self.image, map, letters, &noise.bytes(), power);
        *numbers = new;
        reply
    }

    /// Does a call. Gives the reply.
    pub fn call(&mut self, call: Call) -> u32 {
        self.call_with(call, Power::STAYS)
    }

    /// Does a call whose power fails after `steps` whole steps and `bytes` of the next. Gives the reply.
    pub fn cut(&mut self, call: Call, steps: usize, bytes: usize) -> u32 {
        self.call_with(call, Power::cut(steps, bytes))
    }

    /// Does a call. Gives the reply.
    pub fn call_with(&mut self, call: Call, power: Power) -> u32 {
        let Store { image, record } = self;
        match call {
            Call::Mount { scratch } => {
                let scratch = &mut vec![0; scratch];
                let (reply, numbers) =
                    calls::mount(image, &mut record.map, &mut record.letters, scratch, power);
                record.numbers = numbers;
                reply
            }
            Call::Write { file, offset, payload } => {
                calls::write(image, record, file, offset, &payload.bytes(), power)
            }
            Call::Append { file, offset, .. } => {
                calls::append(image, record, file, offset, call.node(), power)
            }
            Call::Read { file, offset, output } => {
                calls::read(image, record, file, offset, &mut vec![0; output]).0
            }
            Call::CutOff { file, offset } => calls::cut_off(image, record, file, offset, power),
            Call::Commit { noise } => calls::commit(image, record, &noise.bytes(), power),
            Call::Wipe { file, offset, noise } => {
                calls::wipe(image, record, file, offset, &noise.bytes(), power)
            }
            Call::Gather { block } => calls::gather(image, record, block, power),
        }
    }

    /// What a read gives: the payload, or the number of its refusal.
    pub fn payload(&self, file: usize, offset: usize) -> Result<Vec<u8>, u32> {
        let mut output = vec![0; PAYLOAD];
        match calls::read(&self.image, &self.record, file, offset, &mut output) {
            (calls::DONE, length) => Ok(output[..length].to_vec()),
            (refusal, _) => Err(refusal),
        }
    }

    /// The steps that a call has; none where it is refused.
    pub fn steps(&self, call: Call) -> Vec<Step> {
        let Store { image, record } = self;
        let steps = |outcome: Result<Outcome, Refusal>| outcome.map(|outcome| outcome.steps);
        let steps = match call {
            Call::Mount { scratch: SCRATCH } => {
                calls::mount::outcome(image).map(|mounted| mounted.steps)
            }
            Call::Mount { .. } => Err(Refusal::Lengths),
            Call::Write { file, offset, .. } | Call::Append { file, offset, .. } => {
                steps(calls::append::outcome(image, record, file, offset, call.node()))
            }
            Call::Read { .. } => Ok(Vec::new()),
            Call::CutOff { file, offset } => {
                steps(calls::cut_off::outcome(image, record, file, offset))
            }
            Call::Commit { noise } => steps(calls::commit::outcome(image, record, &noise.bytes())),
            Call::Wipe { file, offset, noise } => {
                steps(calls::wipe::outcome(image, record, file, offset, &noise.bytes()))
            }
            Call::Gather { block } => steps(calls::gather::outcome(image, record, block)),
        };
        steps.unwrap_or_default()
    }
}
