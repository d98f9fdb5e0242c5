//! Document 02, #106, on the second implementation: lists in which what a cut erase leaves reads FFh, and
//! mounts that are cut again and again; and stores that settle their blocks in a wrong way, each of which
//! breaks the point of demand 3 that rules it out.

use johvimaru_tests::hex;
use johvimaru_tests::model::blocks::is_data;
use johvimaru_tests::model::calls::mount::Mounted;
use johvimaru_tests::model::calls::{self, CUT, DONE};
use johvimaru_tests::model::chip::Chip;
use johvimaru_tests::model::copies::live_pages;
use johvimaru_tests::model::demand::{run_on, Broken, Maker, Run, Way};
use johvimaru_tests::model::image::{blocks, is_empty, Power, Step, BLOCK, PAGES_IN_BLOCK};
use johvimaru_tests::model::list::{commit, cut_off, wipe, write, Call, Data, Event};
use johvimaru_tests::model::origin::Origin;
use johvimaru_tests::model::pages::{Form, Header, Page, HEADER, PAGE, SPACE};
use johvimaru_tests::model::record::{Record, LETTERS, MAP};
use johvimaru_tests::model::store::Store;
use johvimaru_tests::random_lists::RandomList;

/// Noise that reads FFh.
const ERASED_NOISE: Data = Data { length: 7_168, seed: Data::ALL_ERASED };

// ---- Lists

/// What was met in lists.
#[derive(Debug, Default)]
struct Met {
    calls: usize,
    cuts: usize,
    cut_mounts: usize,
    /// Blocks that mounts which finished have erased and that were not empty.
    erased: usize,
    /// The most blocks that were unsettled at once.
    unsettled: usize,
    /// Unsettled blocks that read FFh.
    look_erased: usize,
    /// The same, and bytes there are still of a key or enciphered by one.
    look_empty: usize,
}

impl Met {
    /// Does a call and counts what it meets.
    fn step(&mut self, run: &mut Run, event: &Event) -> Result<(), Broken> {
        let before = run.store.image.clone();
        let reply = run.step(event)?;
        let is_mount = matches!(event.call, Call::Mount { .. });
        self.calls += usize::from(reply.is_some());
        self.cuts += usize::from(reply == Some(CUT));
        self.cut_mounts += usize::from(is_mount && reply == Some(CUT));
        if is_mount && reply == Some(DONE) {
            let full = |image| blocks(image).filter(|pages| !is_empty(pages)).count();
            self.erased += full(&before) - full(&run.store.image);
        }
        self.look(run);
        Ok(())
    }

    fn look(&mut self, run: &Run) {
        let unsettled = run.chip.unsettled();
        self.unsettled = self.unsettled.max(unsettled.len());
        for block in unsettled {
            let bytes = BLOCK * block..BLOCK * (block + 1);
            if run.store.image[bytes.clone()].iter().all(|&byte| byte == 0xff) {
                self.look_erased += 1;
                let mut origins = run.origins()[bytes].iter();
                self.look_empty += usize::from(origins.any(|&origin| origin != Origin::Nothing));
            }
        }
    }
}

/// Runs the calls of random lists on images whose keys read FFh.
fn run_erased(blocks: usize, seed: u64, met: &mut Met) {
    let mut list = RandomList::erased(seed, blocks);
    let mut run = Run::with_noise(Maker::Second, blocks, seed, ERASED_NOISE);
    let mut events = Vec::new();
    for _ in 0..list.length {
        let event = list.next(run.on);
        events.push(event);
        if let Err(broken) = met.step(&mut run, &event) {
            let list: Vec<String> = events.iter().map(Event::to_string).collect();
            panic!("{blocks} blocks, seed {seed}: {broken}\n{}", list.join("\n"));
        }
    }
}

#[test]
fn random_lists_of_erased_bytes() {
    let mut met = Met::default();
    for (blocks, seeds) in [(8, 0..250), (9, 1_000..1_100), (12, 2_000..2_060)] {
        seeds.for_each(|seed| run_erased(blocks, seed, &mut met));
    }
    println!("{met:?}");
    assert!(met.cuts > 5_000 && met.cut_mounts > 3_000, "{met:?}");
    assert!(met.unsettled > 3 && met.look_erased > 3_000, "{met:?}");
}

/// A mount after a call that was cut in this step: of a program it erases the page's header and what is
/// before it, so that the block reads FFh where the payload does; else it is cut anywhere.
fn cut_mount(store: &Store, step: &Step, number: usize) -> Event {
    if let Step::Program { page, .. } = step {
        let erase = Step::Erase { block: page / PAGES_IN_BLOCK };
        let erases = store.steps(Call::MOUNT);
        if let Some(at) = erases.iter().position(|other| *other == erase) {
            return Event::cut(Call::MOUNT, at, PAGE * (page % PAGES_IN_BLOCK) + HEADER);
        }
    }
    Event::cut(Call::MOUNT, number % 3, [0, BLOCK, 1_000, 1, usize::MAX][number % 5])
}

/// Cuts a call in its step of this number and so many mounts after it, and then come a mount and calls that
/// finish.
fn cut_at(start: &Run, call: Call, n: usize, k: usize, mounts: usize, met: &mut Met) {
    let steps = start.store.steps(call);
    let mut run = start.clone();
    let mut make = |run: &mut Run, event: Event| {
        let broken = met.step(run, &event).err();
        assert_eq!(broken, None, "{call:?} cut at {n}, {k}, and {mounts} mounts: {event}");
    };
    make(&mut run, Event::cut(call, n, k));
    for mount in 0..mounts {
        let event = cut_mount(&run.store, &steps[n], n + k + mount);
        make(&mut run, event);
    }
    let write = write(0, 0, Data::ERASED_ON_FLASH);
    for call in [Call::MOUNT, write, commit(98), wipe(1, 0, 99)] {
        make(&mut run, call.into());
    }
}

/// Each of these calls cut at every step and some bytes, and up to two mounts after it cut too.
fn every_step(start: &Run, calls: &[Call], met: &mut Met) {
    for &call in calls {
        for n in 0..start.store.steps(call).len() {
            for k in [0, HEADER, 200, BLOCK - 1, BLOCK] {
                (0..3).for_each(|mounts| cut_at(start, call, n, k, mounts, met));
            }
        }
    }
}

/// A block that was full when it was committed and has died since, one with deleted keys, and torn pages.
fn old_store() -> Vec<Event> {
    let payload = Data::ERASED_ON_FLASH;
    let mut list: Vec<Event> = (0..16).map(|_| write(0, 0, payload).into()).collect();
    list.extend([write(1, 0, payload), commit(Data::ALL_ERASED), write(0, 0, 1)].map(Event::from));
    list.extend([Event::cut(write(1, 1, payload), 0, 200), Call::MOUNT.into()]);
    list.extend([write(1, 2, payload), cut_off(0, 0), write(2, 0, 5)].map(Event::from));
    list
}

#[test]
fn every_step_of_commit_wipe_and_gather() {
    let mut met = Met::default();
    let run = Run::with_noise(Maker::Second, 8, 1, ERASED_NOISE);
    let start = run_on(run, &old_store()).expect("the store keeps every point");
    let noise = Data::ALL_ERASED;
    let calls = [commit(noise), commit(7), wipe(1, 0, noise), Call::Gather { block: 4 }];
    every_step(&start, &calls, &mut met);
    println!("{met:?}");
    assert!(met.cuts > 4_000 && met.unsettled > 1 && met.erased > 500, "{met:?}");
    assert!(met.look_empty > 100, "{met:?}");
}

// ---- What a mount sees

/// What a mount sees of a block.
struct Seen {
    chosen: bool,
    empty: bool,
    data: bool,
    live: bool,
    /// The highest sequence of its whole headers and of its torn ones, 0 where there are none.
    whole: u32,
    torn: u32,
    covered: u32,
}

impl Seen {
    fn of(store: &Store, block: usize, pages: &[Page]) -> Seen {
        let numbers = store.record.numbers;
        let sequence = |form: &Form| match form.header() {
            Some(Header::Node { sequence, .. } | Header::CutOff { sequence, .. }) => sequence,
            _ => 0,
        };
        let highest = |whole| {
            let forms = pages.iter().map(Form::of);
            let of = forms.filter(|form| matches!(form, Form::Whole(_)) == whole);
            of.map(|form| sequence(&form)).max().unwrap_or(0)
        };
        let commit = &store.image[BLOCK * numbers.commit as usize..];
        let Some(Header::Commit { covered, .. }) = Header::parse(&commit[..PAGE]) else {
            panic!("the record's commit block is whole");
        };
        Seen {
            chosen: [numbers.keys0, numbers.keys1, numbers.commit].contains(&(block as u32)),
            empty: is_empty(pages),
            data: is_data(pages),
            live: !live_pages(&store.record.map, block).is_empty(),
            whole: highest(true),
            torn: highest(false),
            covered,
        }
    }

    /// A data block without a live page.
    fn is_dead(&self) -> bool {
        self.data && !self.live
    }

    /// A data block that has neither a live page nor a header above the covered sequence.
    fn is_covered_dead(&self) -> bool {
        self.is_dead() && self.whole.max(self.torn) <= self.covered
    }

    /// What the request says: neither chosen nor data, or dead and covered.
    fn is_to_erase(&self) -> bool {
        !self.chosen && !self.data || self.is_covered_dead()
    }
}

/// The store's own way to mount.
fn right(store: &Store) -> Way {
    match calls::mount::outcome(&store.image) {
        Ok(Mounted { steps, record, .. }) => Way { reply: DONE, steps, record },
        Err(refusal) => {
            Way { reply: refusal.number(), steps: Vec::new(), record: store.record.clone() }
        }
    }
}

/// A mount that erases those blocks in order.
fn erases(store: &Store, which: fn(&Seen) -> bool) -> Way {
    let mut way = right(store);
    if way.reply == DONE {
        let mounted = Store { image: store.image.clone(), record: way.record.clone() };
        let seen = blocks(&store.image).enumerate();
        let seen = seen.filter(|(block, pages)| which(&Seen::of(&mounted, *block, pages)));
        way.steps = seen.map(|(block, _)| Step::Erase { block }).collect();
    }
    way
}

/// The erases of a mount are those of the request's words.
#[test]
fn what_a_mount_sees() {
    let mut erased = [0; 3];
    for seed in 0..100 {
        let mut list = RandomList::new(seed, 8);
        let mut run = Run::new(8, seed).by_points_alone();
        for _ in 0..list.length {
            let event = list.next(run.on);
            run.step(&event).expect("the store keeps every point");
            let (own, by_words) = (right(&run.store), erases(&run.store, Seen::is_to_erase));
            assert_eq!(own.steps, by_words.steps, "seed {seed}");
            let covered = erases(&run.store, Seen::is_covered_dead).steps.len();
            let empty = erases(&run.store, |seen| seen.empty).steps.len();
            let all = [covered, empty, own.steps.len()];
            erased.iter_mut().zip(all).for_each(|(sum, count)| *sum += count);
        }
    }
    let [covered, empty, all] = erased;
    println!("{all} erases: {covered} of covered blocks, {empty} of empty ones");
    assert!(covered > 20 && empty > 1_000 && all > covered + empty);
}

// ---- Wrong ways to mount

fn leaves_empty_blocks(store: &Store) -> Way {
    erases(store, |seen| seen.is_to_erase() && !seen.empty)
}

fn leaves_covered_blocks(store: &Store) -> Way {
    erases(store, |seen| seen.is_to_erase() && !seen.data)
}

fn erases_torn_above(store: &Store) -> Way {
    erases(store, |seen| seen.is_to_erase() || seen.is_dead() && seen.whole <= seen.covered)
}

fn erases_whole_above(store: &Store) -> Way {
    erases(store, |seen| seen.is_to_erase() || seen.is_dead() && seen.torn <= seen.covered)
}

fn erases_all_dead(store: &Store) -> Way {
    erases(store, |seen| seen.is_to_erase() || seen.is_dead())
}

fn erases_one_above(store: &Store) -> Way {
    erases(store, |seen| {
        seen.is_to_erase() || seen.is_dead() && seen.whole.max(seen.torn) <= seen.covered + 1
    })
}

fn erases_live_pages(store: &Store) -> Way {
    erases(store, |seen| {
        seen.is_to_erase() || seen.data && seen.whole.max(seen.torn) <= seen.covered
    })
}

fn leaves_its_first_block(store: &Store) -> Way {
    let mut way = right(store);
    way.steps.drain(..way.steps.len().min(1));
    way
}

/// A step that writes the first key as text on the first page of a block.
fn key_as_text(store: &Store, record: &Record, block: usize) -> Step {
    let text = hex::text(&record.key(&store.image, 0));
    let mut bytes = Box::new([SPACE; PAGE]);
    bytes[..text.len()].copy_from_slice(text.as_bytes());
    Step::Program { page: PAGES_IN_BLOCK * block, bytes }
}

/// Its erases done, it writes a key into the last block that it has erased.
fn writes_keys_as_text(store: &Store) -> Way {
    let mut way = right(store);
    if let Some(&Step::Erase { block }) = way.steps.last() {
        way.steps.push(key_as_text(store, &way.record, block));
    }
    way
}

/// Before its erases it writes a key into the first block that it is to erase.
fn writes_keys_before_it_erases(store: &Store) -> Way {
    let mut way = right(store);
    if let Some(&Step::Erase { block }) = way.steps.first() {
        way.steps.insert(0, key_as_text(store, &way.record, block));
    }
    way
}

/// A call that ends with an erase is done where the power fails in that erase at this byte.
fn ends_at(byte: usize, store: &mut Store, call: Call, power: Power) -> u32 {
    let steps = store.steps(call);
    let is_erase = matches!(steps.last(), Some(Step::Erase { .. }));
    let is_last = steps.len().checked_sub(1) == Some(power.steps);
    match store.call_with(call, power) {
        CUT if is_erase && is_last && power.bytes == byte => DONE,
        reply => reply,
    }
}

fn ends_at_the_last_byte(store: &mut Store, call: Call, power: Power) -> u32 {
    ends_at(BLOCK, store, call, power)
}

fn ends_at_no_byte(store: &mut Store, call: Call, power: Power) -> u32 {
    ends_at(0, store, call, power)
}

/// The replaced key block is erased whole but for the last byte at which the power counts as on.
fn cut_erase_of_keys() -> Vec<Event> {
    let cut = Event::cut(commit(1), 16, BLOCK);
    vec![write(0, 0, 1).into(), cut, Call::MOUNT.into(), commit(2).into(), commit(3).into()]
}

/// A dead block whose erase by a commit is cut at this byte.
fn cut_erase_of_dead(byte: usize) -> Vec<Event> {
    let mut list = [write(0, 0, 1), cut_off(0, 0)].map(Event::from).to_vec();
    list.extend([Event::cut(commit(1), 45, byte), Call::MOUNT.into()]);
    list.extend([commit(2), commit(3)].map(Event::from));
    list
}

/// Pages 48 to 62 are covered by a commit, then this call takes page 63, and then the block dies.
fn dies_after(call: Event, then: &[Call]) -> Vec<Event> {
    let mut list: Vec<Event> = (0..15).map(|seed| write(0, 0, seed).into()).collect();
    list.extend([commit(1).into(), call, Call::MOUNT.into()]);
    list.extend(then.iter().copied().map(Event::from));
    list.extend([Call::MOUNT, Call::MOUNT].map(Event::from));
    list
}

/// Page 63 is torn.
fn dies_torn() -> Vec<Event> {
    dies_after(Event::cut(write(0, 1, 20), 0, 100), &[write(0, 0, 21)])
}

/// Page 63 is whole and of a node that is replaced.
fn dies_whole() -> Vec<Event> {
    dies_after(write(0, 1, 20).into(), &[write(0, 1, 21), write(0, 0, 22)])
}

/// Page 63 removes the node.
fn dies_by_cut_off() -> Vec<Event> {
    dies_after(cut_off(0, 0).into(), &[write(2, 0, 5)])
}

/// A block that the commit covers and that has a live page.
fn covered_and_live() -> Vec<Event> {
    [write(0, 0, 1), commit(1), Call::MOUNT, Call::MOUNT].map(Event::from).to_vec()
}

/// A wrong store, the list that shows it, and what the point says that it breaks.
struct Wrong {
    name: &'static str,
    maker: Maker,
    list: fn() -> Vec<Event>,
    /// The point's name in the theorem, and the words of the check.
    point: (&'static str, &'static str),
}

const ALL_SETTLED: (&str, &str) = ("allSettled", "are left unsettled");
const LETTERED: (&str, &str) = ("lettered", "letter f, in the book d");
const REPLIED: (&str, &str) = ("replied", "reply 14, by the book it is 0");

const WRONG: [Wrong; 14] = [
    Wrong {
        name: "mount leaves empty blocks",
        maker: Maker::Mounts(leaves_empty_blocks),
        list: cut_erase_of_keys,
        point: ALL_SETTLED,
    },
    Wrong {
        name: "mount leaves covered dead data blocks",
        maker: Maker::Mounts(leaves_covered_blocks),
        list: || cut_erase_of_dead(0),
        point: ALL_SETTLED,
    },
    Wrong {
        name: "mount leaves the first of its blocks",
        maker: Maker::Mounts(leaves_its_first_block),
        list: cut_erase_of_keys,
        point: ALL_SETTLED,
    },
    Wrong {
        name: "mount erases a dead block with a torn header above the covered sequence",
        maker: Maker::Mounts(erases_torn_above),
        list: dies_torn,
        point: LETTERED,
    },
    Wrong {
        name: "mount erases a dead block with a whole header above the covered sequence",
        maker: Maker::Mounts(erases_whole_above),
        list: dies_whole,
        point: LETTERED,
    },
    Wrong {
        name: "the same, of a cut-off",
        maker: Maker::Mounts(erases_whole_above),
        list: dies_by_cut_off,
        point: REPLIED,
    },
    Wrong {
        name: "mount erases every dead block",
        maker: Maker::Mounts(erases_all_dead),
        list: dies_torn,
        point: LETTERED,
    },
    Wrong {
        name: "mount takes one above the covered sequence for covered",
        maker: Maker::Mounts(erases_one_above),
        list: dies_by_cut_off,
        point: REPLIED,
    },
    Wrong {
        name: "mount erases a covered block with a live page",
        maker: Maker::Mounts(erases_live_pages),
        list: covered_and_live,
        point: ("reads", "replies 7, not"),
    },
    Wrong {
        name: "mount writes a key as text",
        maker: Maker::Mounts(writes_keys_as_text),
        list: covered_and_live,
        point: ("programs", "a mount programs a page"),
    },
    Wrong {
        name: "mount writes a key into a block before it erases it",
        maker: Maker::Mounts(writes_keys_before_it_erases),
        list: cut_erase_of_keys,
        point: ("onSettled", "step 0 programs the unsettled block 0"),
    },
    Wrong {
        name: "an erase cut at byte 4,096 counts as done",
        maker: Maker::Other(ends_at_the_last_byte),
        list: || cut_erase_of_dead(BLOCK),
        point: ALL_SETTLED,
    },
    Wrong {
        name: "an erase cut at byte 0 counts as done",
        maker: Maker::Other(ends_at_no_byte),
        list: || cut_erase_of_dead(0),
        point: ALL_SETTLED,
    },
    Wrong {
        name: "the same, of a mount",
        maker: Maker::Other(ends_at_no_byte),
        list: || [&cut_erase_of_keys()[..2], &[Event::cut(Call::MOUNT, 3, 0)]].concat(),
        point: ALL_SETTLED,
    },
];

#[test]
fn wrong_stores_break_their_point() {
    for Wrong { name, maker, list, point: (point, text) } in &WRONG {
        let right = run_on(Run::new(8, 3), &list()).err();
        assert_eq!(right, None, "the store keeps every point: {name}");
        let broken = run_on(Run::by(*maker, 8, 3).by_points_alone(), &list()).err();
        let is_right = broken.as_ref().is_some_and(|broken| broken.contains(text));
        assert!(is_right, "{name}, is to break {point}: {broken:?}");
    }
}

/// The points by their names in the theorem, and the words of their checks.
const POINTS: [(&str, &str); 9] = [
    ALL_SETTLED,
    ("onSettled", "programs the unsettled block"),
    ("programs", "a mount programs a page"),
    ("lettered", "letter"),
    ("mapped", ": key"),
    ("replied", "by the book it is"),
    ("reads", "a read at place"),
    ("slotted", "a stale key"),
    ("purged", "with other dead keys"),
];

/// The same stores on random lists, until each is caught twelve times: in how many lists, and by which points.
#[test]
fn wrong_stores_on_random_lists() {
    for Wrong { name, maker, .. } in WRONG.iter().filter(|of| !of.name.starts_with("the same")) {
        let mut lists = 0;
        let all = (0..150).inspect(|seed| lists = seed + 1);
        let broken = all.filter_map(|seed| break_by_list(*maker, seed)).take(12);
        let broken: Vec<Broken> = broken.collect();
        let of = |text: &str| broken.iter().filter(|broken| broken.contains(text)).count();
        let by = POINTS.map(|(point, text)| format!("{point} {}", of(text)));
        println!("{name}: {} of {lists} lists, {}", broken.len(), by.join(", "));
        assert!(!broken.is_empty(), "{name}");
        let other = broken.iter().find(|of| !POINTS.iter().any(|(_, text)| of.contains(text)));
        assert_eq!(other, None, "{name}");
    }
}

/// What a random list breaks.
fn break_by_list(maker: Maker, seed: u64) -> Option<Broken> {
    let kind = if seed.is_multiple_of(2) { RandomList::erased } else { RandomList::new };
    let mut list = kind(seed, 8);
    let mut run = Run::by(maker, 8, seed).by_points_alone();
    (0..list.length).find_map(|_| {
        let event = list.next(run.on);
        run.step(&event).err()
    })
}

// ---- The order of the erases

/// First those of strays, then those of covered blocks.
fn erases_in_two_passes(store: &Store) -> Way {
    let mut way = erases(store, |seen| seen.is_to_erase() && !seen.data);
    way.steps.extend(erases(store, Seen::is_covered_dead).steps);
    way
}

fn erases_falling(store: &Store) -> Way {
    let mut way = right(store);
    way.steps.reverse();
    way
}

/// No point of demand 3 says in which order a mount erases: one pass, by block, is said by its steps, which
/// the library's mount is compared with at every cut.
#[test]
fn another_order_breaks_no_point() {
    for way in [erases_in_two_passes, erases_falling] {
        for Wrong { name, list, .. } in &WRONG {
            let broken = run_on(Run::by(Maker::Mounts(way), 8, 3), &list()).err();
            assert_eq!(broken, None, "{name}");
        }
        let broken = (0..60).find_map(|seed| break_by_list(Maker::Mounts(way), seed));
        assert_eq!(broken, None);
        let run = run_on(Run::new(8, 3), &cut_erase_of_dead(0)[..2]).expect("both are done");
        let mut store = run.store;
        assert_eq!(store.cut(commit(1), 45, 0), CUT);
        let (own, other) = (right(&store).steps, way(&store).steps);
        assert_eq!(own.len(), other.len());
        assert_ne!(own, other);
    }
}

// ---- The chip alone

/// A store whose calls go this way, on a chip. Gives the pages that the chip has lost, and whether it then
/// has what the image has.
fn on_chip(mount: fn(&Store) -> Way, list: &[Event]) -> (usize, bool) {
    let mut store = Store::formatted(8, Data::noise(1));
    let mut chip = Chip::settled(&store.image, 2);
    for &Event { call, power, .. } in list {
        let steps = match call {
            Call::Mount { .. } => mount(&store).steps,
            _ => store.steps(call),
        };
        chip.play(&steps, power);
        store.call_with(call, power);
    }
    (chip.lost(), chip.bytes() == store.image)
}

/// The block whose erase was cut reads FFh, and the next commit takes it for a key block, where a mount leaves
/// it or there is none between.
#[test]
fn a_chip_loses_what_is_programmed_after_a_cut_erase() {
    let list = cut_erase_of_keys();
    assert_eq!(on_chip(right, &list), (0, true));
    assert_eq!(on_chip(leaves_empty_blocks, &list[..4]), (16, false));

    let list = cut_erase_of_dead(BLOCK);
    assert_eq!(on_chip(right, &list), (0, true));
    assert_eq!(on_chip(leaves_empty_blocks, &list[..5]), (16, false));
    let counts_as_done = [&list[..3], &list[4..5]].concat();
    assert_eq!(on_chip(right, &counts_as_done), (16, false));
}

/// Cut at any byte an erase leaves its block unsettled, and one that is done settles it.
#[test]
fn a_chip_settles_by_whole_erases() {
    let erase = [Step::Erase { block: 5 }, Step::Erase { block: 6 }];
    for byte in [0, 1, BLOCK - 1, BLOCK, BLOCK + 1, usize::MAX] {
        let mut chip = Chip::settled(&[0; 8 * BLOCK], 1);
        chip.play(&erase, Power::cut(0, byte));
        assert_eq!(chip.unsettled(), [5], "cut at {byte}");
        assert!(chip.bytes()[5 * BLOCK..][..byte.min(BLOCK)].iter().all(|&byte| byte == 0xff));
        chip.play(&erase, Power::cut(1, byte));
        assert_eq!(chip.unsettled(), [6], "cut at {byte}");
        chip.play(&erase, Power::cut(2, byte));
        assert_eq!(chip.unsettled(), [], "cut at {byte}");
    }
}

/// A lost page is read as something else, whatever the seed, and only so much of it as was programmed.
#[test]
fn a_lost_page_is_another() {
    let bytes = [b'N'; PAGE];
    for seed in 0..200 {
        let mut chip = Chip::of_unknown_past(&[0xff; 8 * BLOCK], seed);
        chip.program(17, &bytes[..100]);
        assert!(chip.bytes()[17 * PAGE..][..100] != bytes[..100], "seed {seed}");
        assert!(chip.bytes()[17 * PAGE + 100..].iter().all(|&byte| byte == 0xff), "seed {seed}");
        chip.erase(1);
        chip.program(17, &bytes);
        assert_eq!(chip.bytes()[17 * PAGE..][..PAGE], bytes, "seed {seed}");
        assert_eq!(chip.lost(), 1);
    }
}

/// A format erases each block before it programs it. One that spares the erases of empty blocks does not.
#[test]
fn a_format_programs_what_it_has_erased() {
    let mut image = vec![0xff; 8 * BLOCK];
    image[3 * BLOCK..].fill(b'?');
    let chip = Chip::of_unknown_past(&image, 1);
    let noise = Data::noise(1).bytes();
    let steps = calls::format::outcome(&image, MAP, LETTERS, &noise).expect("it is taken");
    assert_eq!(chip.program_on_unsettled(&steps), None);
    let kept = steps.into_iter().filter(|step| !matches!(step, Step::Erase { block: 0..3 }));
    let sparing: Vec<Step> = kept.collect();
    assert_eq!(chip.program_on_unsettled(&sparing), Some((5, 0)));
}

/// Nothing is said of a format that is cut: what is behind the cut stays, and where that can be mounted, a block
/// with data may be unsettled that the mount keeps. The next write then goes into it.
#[test]
fn a_mount_after_a_cut_format_may_keep_an_unsettled_block() {
    let mut store = Store::formatted(8, Data::noise(1));
    let mut calls = vec![write(0, 0, 1); 16];
    calls.extend([commit(2), commit(3), commit(4), write(1, 0, 5)]);
    calls.into_iter().for_each(|call| assert_eq!(store.call(call), DONE));
    assert_eq!(store.record.entry(32).map(|entry| entry.page), Some(0));

    let mut chip = Chip::settled(&store.image, 6);
    let cut = Power::cut(0, 0);
    let noise = Data::noise(7);
    let format = calls::format::outcome(&store.image, MAP, LETTERS, &noise.bytes());
    chip.play(&format.expect("it is taken"), cut);
    assert_eq!(store.format(noise, cut), CUT);
    for call in [Call::MOUNT, write(1, 1, 8)] {
        chip.play(&store.steps(call), Power::STAYS);
        assert_eq!(store.call(call), DONE);
        assert_eq!(chip.unsettled(), [0]);
    }
    assert_eq!((chip.lost(), chip.bytes() == store.image), (1, false));
}
