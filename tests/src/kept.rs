//! A store of the library and the second implementation, with its plain book.

use crate::model::book::Book;
use crate::model::calls::DONE;
use crate::model::files::{self, PLACES};
use crate::model::image::Power;
use crate::model::list::Call;
use crate::model::pages::PAYLOAD;
use crate::side_by_side::{self, Both};
use johvimaru::raw as recorder;

/// A store with its book.
#[derive(Clone)]
pub struct Kept {
    /// The store.
    pub store: Both,
    /// Its book.
    pub book: Book,
    calls: usize,
}

impl Kept {
    /// A store of so many blocks after its format, and these calls, all of which are done.
    pub fn after(blocks: usize, calls: &[Call]) -> Kept {
        let mut kept = Kept { store: Both::formatted(blocks), book: Book::new(), calls: 0 };
        for &call in calls {
            assert_eq!(kept.call(call, Power::STAYS), DONE, "{call:?}");
        }
        kept
    }

    /// Does a call and enters it. Gives the reply.
    pub fn call(&mut self, call: Call, power: Power) -> u32 {
        let reply = match power {
            Power::STAYS => self.store.call(call.into()),
            Power { steps, bytes } => self.store.cut(call.into(), steps, bytes),
        };
        self.calls += 1;
        self.book.enter(self.calls, call, reply, power);
        reply
    }

    /// Map, letters and reads of the library are what the book says.
    pub fn check(&self, at: &str) {
        let Both(store) = &self.store;
        let record = &store.record;
        assert!(record.letters == self.book.marks, "{at}: letters");
        let ours = side_by_side::to_library(record.clone());
        for place in 0..PLACES {
            let content = self.book.places[place].as_ref();
            let key = record.entry(place).map(|entry| usize::from(entry.key));
            assert_eq!(key, content.map(|content| content.position), "{at}: place {place}");
            if let Some(content) = content {
                let (file, offset) = files::node(place);
                let mut output = [0; PAYLOAD];
                let (reply, length) =
                    recorder::read(&store.image, &ours, file as u32, offset as u32, &mut output);
                assert_eq!(reply, DONE, "{at}: read");
                assert!(output[..length] == content.payload, "{at}: payload of place {place}");
                assert!(output[length..].iter().all(|&byte| byte == 0), "{at}: rest of the output");
            }
        }
    }
}
