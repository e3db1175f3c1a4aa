//! What the library says to serve, on every graph of the gallery: each run of many orders, budgets and sizes, kept for each
//! other one.

use std::fs;

use plotter::{Engine, Left, Library, Profile, Request};
use ttda::layout::fields::token;
use ttda::widths::{MOST_CELLS, MOST_RECORDS, PICK, WHOLE_BUDGET};

/// The most records of a ledger, and the most cells.
const RECORDS: u16 = MOST_RECORDS as u16;
const CELLS: u16 = MOST_CELLS as u16;
const EXAMPLES: &str = concat!(env!("CARGO_MANIFEST_DIR"), "/../../examples");

/// A run with all that a plot shows of it.
struct Shown {
    request: Request,
    left: Left,
    listing: Vec<u8>,
    profile: Profile,
}

impl Shown {
    fn of(request: Request) -> Shown {
        let left = Library.run(&request);
        let mut listing = vec![0; left.ledger.len()];
        assert!(ttda::list(&left.ledger, &mut listing).is_done());
        Shown {
            profile: Library.profile(&request),
            request,
            left,
            listing,
        }
    }

    fn serves(&self, asked: &Shown) -> bool {
        Library.serves(&self.request, &self.left, &asked.request)
    }

    fn is_shown_alike(&self, other: &Shown) -> bool {
        let same_left =
            self.left.answer == other.left.answer && self.left.cells == other.left.cells;
        same_left && self.listing == other.listing && self.profile == other.profile
    }
}

/// The files of every graph of the gallery.
fn gallery() -> Vec<asm::Files> {
    let folders = fs::read_dir(EXAMPLES).unwrap().map(|entry| entry.unwrap());
    let texts = folders.filter_map(|folder| {
        let name = folder.file_name().into_string().unwrap();
        fs::read_to_string(folder.path().join(name + ".ttda")).ok()
    });
    texts.map(|text| asm::assemble(&text).unwrap()).collect()
}

/// Runs of a graph that differ in one thing or in several: picks, two of which no run takes, budget, capacity, cell count, bound.
fn runs(files: &asm::Files) -> Vec<Shown> {
    let most = PICK * MOST_RECORDS;
    let picks = [0, 2, 60, most, 61, most + PICK].map(|bytes| vec![201; bytes]);
    let whole = Library
        .run(&request(files, &[], WHOLE_BUDGET, RECORDS, CELLS))
        .answer;
    let firings = ttda::Answer(whole).firings() as u16;
    let mut runs = Vec::new();
    for picks in &picks {
        for budget in [0, firings / 2, firings, WHOLE_BUDGET] {
            for (capacity, cells) in [(RECORDS, CELLS), (90, CELLS), (RECORDS, 20)] {
                runs.push(Shown::of(request(files, picks, budget, capacity, cells)));
            }
        }
    }
    for bound in [2, 4] {
        for (picks, budget) in [
            (&picks[0], WHOLE_BUDGET),
            (&picks[2], WHOLE_BUDGET),
            (&picks[0], firings / 2),
        ] {
            let plain = request(files, picks, budget, RECORDS, CELLS);
            runs.push(Shown::of(Request { bound, ..plain }));
        }
    }
    runs
}

fn request(files: &asm::Files, picks: &[u8], budget: u16, capacity: u16, cells: u16) -> Request {
    Request {
        graph: files.graph.clone(),
        arrays: files.arrays.clone(),
        inputs: files.inputs.clone(),
        picks: picks.to_vec(),
        budget,
        bound: 0,
        capacity,
        cells,
    }
}

/// Whatever is served is what its own run would show; every run serves itself, some serve another order, and some with a bound
/// serve one without.
#[test]
fn what_is_served_is_what_the_run_would_show() {
    let (mut graphs, mut other_orders, mut unbounded) = (0, 0, 0);
    for files in gallery() {
        let runs = runs(&files);
        for kept in &runs {
            assert!(kept.serves(kept));
            for asked in runs.iter().filter(|asked| kept.serves(asked)) {
                assert!(kept.is_shown_alike(asked));
                let bounds = (kept.request.bound, asked.request.bound);
                assert!(bounds.0 == bounds.1 || bounds.1 == 0, "{bounds:?}");
                other_orders += usize::from(kept.request.picks != asked.request.picks);
                unbounded += usize::from(bounds.0 != bounds.1);
            }
        }
        graphs += 1;
    }
    assert!(
        graphs > 40 && other_orders > 1000 && unbounded > 1000,
        "{graphs}, {other_orders}, {unbounded}"
    );
}

/// Another graph, another table of arrays or another input is never served.
#[test]
fn another_graph_is_never_served() {
    let gallery = gallery();
    let shown = |files: &asm::Files| Shown::of(request(files, &[], WHOLE_BUDGET, RECORDS, CELLS));
    for files in &gallery {
        let kept = shown(files);
        let mut edited = files.clone();
        edited.inputs[token::VALUE.start] ^= 1;
        assert!(!kept.serves(&shown(&edited)));
        let mut edited = files.clone();
        // An array more, which no instruction names.
        edited.arrays.extend([7, 0, 1, 0]);
        let other = shown(&edited);
        assert!(kept.is_shown_alike(&other) && !kept.serves(&other));
        for other in gallery.iter().filter(|other| *other != files) {
            assert!(!kept.serves(&shown(other)));
        }
    }
}
