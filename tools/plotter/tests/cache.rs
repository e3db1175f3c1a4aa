//! What is kept, whom it serves, and what a plot says of it. The engine is a stand-in here: what the plotter makes of its
//! answers is what is tested.

use std::cell::Cell;
use std::fs;
use std::path::PathBuf;
use std::sync::atomic::{AtomicUsize, Ordering};

use plotter::curves::Steps;
use plotter::{Cache, Engine, Left, Plot, Profile, Request, Run, Step, Words};
use ttda::widths::{ARRAY, TOKEN, WHOLE_BUDGET};

/// Counts its runs, and serves as it is told.
struct StandIn {
    serves: bool,
    runs: Cell<u8>,
}

impl StandIn {
    fn new(serves: bool) -> StandIn {
        let runs = Cell::new(0);
        StandIn { serves, runs }
    }
}

impl Engine for StandIn {
    fn run(&self, asked: &Request) -> Left {
        self.runs.set(self.runs.get() + 1);
        Left {
            answer: u64::from(self.runs.get()) << 32,
            ledger: asked.inputs.clone(),
            cells: vec![self.runs.get(); 8],
        }
    }

    fn profile(&self, _: &Request) -> Profile {
        let steps = vec![Step {
            firings: 258,
            tokens: 3,
        }];
        Profile { answer: 77, steps }
    }

    fn serves(&self, kept: &Request, left: &Left, asked: &Request) -> bool {
        let unbounded = Request {
            bound: 0,
            ..kept.clone()
        };
        assert_eq!((unbounded, left.answer), (request(&[]), 1 << 32));
        assert_eq!(asked.graph, kept.graph);
        self.serves
    }
}

/// A folder that goes with the test.
struct Folder(PathBuf);

impl Folder {
    fn new() -> Folder {
        static COUNT: AtomicUsize = AtomicUsize::new(0);
        let number = COUNT.fetch_add(1, Ordering::Relaxed);
        let name = format!("plotter-test-{}-{number}", std::process::id());
        Folder(std::env::temp_dir().join(name))
    }

    fn cache(&self) -> Cache {
        Cache::new(self.0.join("kept/plot"), "one")
    }
}

impl Drop for Folder {
    fn drop(&mut self) {
        let _ = fs::remove_dir_all(&self.0);
    }
}

fn request(picks: &[u8]) -> Request {
    Request {
        graph: vec![1, 2, 3],
        arrays: vec![5; ARRAY],
        inputs: vec![4; TOKEN],
        picks: picks.to_vec(),
        budget: WHOLE_BUDGET,
        bound: 0,
        capacity: 20,
        cells: 1,
    }
}

/// Asked for at a second after 2026-11-16 05:40.
fn asked(order: &str, picks: &[u8], second: u64) -> Run {
    Run {
        request: request(picks),
        order: order.to_string(),
        seconds: 1_794_807_600 + second,
    }
}

fn words() -> Words {
    Words {
        title: "sum.ttda".to_string(),
        run: "completed".to_string(),
        profile: vec!["1 ideal step".to_string()],
        left: Vec::new(),
    }
}

/// The engine says no: the run asked for is made, and the plot is its own.
#[test]
fn what_does_not_serve_is_not_shown() {
    let (folder, engine) = (Folder::new(), StandIn::new(false));
    let cache = folder.cache();
    let first = Plot::of(&engine, Some(&cache), asked("oldest first", &[], 0));
    let second = asked("newest first", &[0, 1], 9);
    let plot = Plot::of(&engine, Some(&cache), second.clone());
    assert_eq!((plot.run.clone(), plot.asked.clone()), (second, None));
    assert_eq!((first.left.cells[0], plot.left.cells[0]), (1, 2));
    let svg = plot.svg(&words(), Steps::default()).unwrap();
    assert!(svg.contains("run of 2026-11-16 05:40:09 UTC: completed"));
    assert!(!svg.contains("05:40:00") && !svg.contains("asked for"));
}

/// The engine says yes: the plot is of the kept run, under its own order and date, and names the one asked for.
#[test]
fn what_serves_is_shown_as_what_it_is() {
    let (folder, engine) = (Folder::new(), StandIn::new(true));
    let cache = folder.cache();
    let first = Plot::of(&engine, Some(&cache), asked("oldest first", &[], 0));
    let second = asked("newest first", &[0, 1], 9);
    let plot = Plot::of(&engine, Some(&cache), second.clone());
    assert_eq!(engine.runs.get(), 1);
    assert_eq!((&plot.run, &plot.left), (&first.run, &first.left));
    assert_eq!(
        (&plot.profile, &plot.asked),
        (&first.profile, &Some(second))
    );
    let svg = plot.svg(&words(), Steps::default()).unwrap();
    assert!(svg.contains("run of 2026-11-16 05:40:00 UTC: completed"));
    let line = "asked for: newest first, 2026-11-16 05:40:09 UTC; any order ends as this one";
    assert!(svg.contains(line), "{svg}");
}

#[test]
fn the_reason_is_the_one_that_holds() {
    let (folder, engine) = (Folder::new(), StandIn::new(true));
    let cache = folder.cache();
    let kept = Plot::of(&engine, Some(&cache), asked("oldest first", &[], 0));
    assert_eq!(kept.asked_for(), None);
    let again = Plot::of(&engine, Some(&cache), asked("oldest first", &[], 1));
    let line = "asked for: oldest first, 2026-11-16 05:40:01 UTC; the same run";
    assert_eq!(again.asked_for().unwrap(), line);
    let mut budget = asked("oldest first", &[], 2);
    budget.request.budget = 9;
    let budget = Plot::of(&engine, Some(&cache), budget);
    let line =
        "asked for: oldest first, budget 9, 2026-11-16 05:40:02 UTC; either budget is enough";
    assert_eq!(budget.asked_for().unwrap(), line);
}

/// A bounded run is called by its bound, in words and in the fingerprint, from the file too; it is never the same run as one without.
#[test]
fn a_bound_is_named() {
    let (folder, engine) = (Folder::new(), StandIn::new(true));
    let cache = folder.cache();
    let mut bounded = asked("oldest first", &[], 0);
    bounded.request.bound = 2;
    Plot::of(&engine, Some(&cache), bounded.clone());
    let served = Plot::of(&engine, Some(&cache), asked("oldest first", &[], 1));
    assert_eq!(engine.runs.get(), 1);
    assert_eq!(served.run, bounded);
    assert_eq!(served.run.words(), "oldest first, bound 2");
    let line = "asked for: oldest first, 2026-11-16 05:40:01 UTC; any order without a bound ends as this one";
    assert_eq!(served.asked_for().unwrap(), line);
    let fact = |plot: &Plot| {
        let svg = plot.svg(&words(), Steps::default()).unwrap();
        let from = svg.find("graph").unwrap();
        svg[from..from + 40].to_string()
    };
    let plain = Plot::of(&engine, None, asked("oldest first", &[], 0));
    assert!(fact(&served).starts_with("graph, inputs and bound "));
    assert!(fact(&plain).starts_with("graph and inputs "));
    let last = |fact: String| fact.split(' ').next_back().map(str::to_string);
    assert_ne!(last(fact(&served)), last(fact(&plain)));
}

/// Every byte of the file counts, and so does the engine that it names.
#[test]
fn a_damaged_file_counts_as_none() {
    let (folder, engine) = (Folder::new(), StandIn::new(true));
    let file = folder.0.join("kept/plot");
    Plot::of(
        &engine,
        Some(&folder.cache()),
        asked("oldest first", &[], 0),
    );
    let whole = fs::read(&file).unwrap();
    let served = |bytes: &[u8], cache: Cache| {
        fs::write(&file, bytes).unwrap();
        let plot = Plot::of(&StandIn::new(true), Some(&cache), asked("", &[], 1));
        plot.asked.is_some()
    };
    assert!(served(&whole, folder.cache()));
    for at in 0..whole.len() {
        let mut damaged = whole.clone();
        damaged[at] ^= 1;
        assert!(!served(&damaged, folder.cache()), "byte {at}");
        assert!(!served(&whole[..at], folder.cache()), "{at} bytes");
    }
    let other = Cache::new(file.clone(), "another");
    assert!(!served(&whole, other));
}

/// Without a cache, or with one that cannot be written, every plot is a run of its own.
#[test]
fn no_cache() {
    let (folder, engine) = (Folder::new(), StandIn::new(true));
    fs::create_dir_all(&folder.0).unwrap();
    fs::write(folder.0.join("kept"), "a file in the way").unwrap();
    for cache in [None, Some(&folder.cache())] {
        let plot = Plot::of(&engine, cache, asked("oldest first", &[], 0));
        assert_eq!(plot.asked, None);
    }
    Plot::of(
        &engine,
        Some(&folder.cache()),
        asked("oldest first", &[], 0),
    );
    assert_eq!(engine.runs.get(), 3);
}
