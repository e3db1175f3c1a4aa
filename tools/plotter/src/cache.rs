//! The plotter's cache: the last plot, whole, in a file. One that is damaged, or another engine's, counts as none.

use std::fs;
use std::path::{Path, PathBuf};

use crate::clock;
use crate::engine::{Left, Profile, Request, Step};
use crate::fingerprint::Fingerprint;
use crate::plot::{Plot, Run};

/// Bytes of the checksum at the end of the file.
const SUM: usize = 32;

pub struct Cache {
    file: PathBuf,
    /// The form of the file, and the engine whose runs it holds.
    head: String,
}

impl Cache {
    /// A cache in a file, for the runs of one engine.
    pub fn new(file: PathBuf, engine: &str) -> Cache {
        let head = format!("dayomlak plot 4, engine {engine}\n");
        Cache { file, head }
    }

    /// In the user's cache folder, by the rules of freedesktop.org. While another moment stands in for the clock there is
    /// none, so that nothing made then is shown later under that date.
    pub fn of_user(engine: &str) -> Option<Cache> {
        if clock::fixed().is_some() {
            return None;
        }
        let folder = |name: &str| {
            std::env::var_os(name)
                .filter(|path| !path.is_empty())
                .map(PathBuf::from)
        };
        let cache = folder("XDG_CACHE_HOME").filter(|path| path.is_absolute());
        let cache = cache.or_else(|| folder("HOME").map(|home| home.join(".cache")))?;
        Some(Cache::new(cache.join("dayomlak").join("plot"), engine))
    }

    /// The plot that is kept.
    pub(crate) fn load(&self) -> Option<Plot> {
        let bytes = fs::read(&self.file).ok()?;
        let (content, sum) = bytes.split_at_checked(bytes.len().checked_sub(SUM)?)?;
        if Fingerprint::of(content).0 != sum {
            return None;
        }
        decode(content.strip_prefix(self.head.as_bytes())?)
    }

    /// Keeps a plot. Without a cache everything works as well, so that a folder that cannot be written is no failure.
    pub(crate) fn save(&self, plot: &Plot) {
        let mut bytes = self.head.as_bytes().to_vec();
        encode(plot, &mut bytes);
        bytes.extend(Fingerprint::of(&bytes).0);
        if let Some(folder) = self.file.parent() {
            let _ = fs::create_dir_all(folder);
        }
        let _ = replace(&self.file, &bytes);
    }
}

/// Writes a file by way of another one beside it, so that nobody finds half of it.
fn replace(file: &Path, bytes: &[u8]) -> std::io::Result<()> {
    let part = file.with_extension(format!("{}.part", std::process::id()));
    let written = fs::write(&part, bytes).and_then(|()| fs::rename(&part, file));
    if written.is_err() {
        let _ = fs::remove_file(&part);
    }
    written
}

fn encode(plot: &Plot, bytes: &mut Vec<u8>) {
    let request = &plot.run.request;
    let numbers = [
        u64::from(request.capacity),
        u64::from(request.cells),
        u64::from(request.budget),
        u64::from(request.bound),
        plot.left.answer,
        plot.profile.answer,
        plot.run.seconds,
    ];
    let steps = Step::records(&plot.profile.steps);
    let fields = [
        &request.graph[..],
        &request.arrays,
        &request.inputs,
        &request.picks,
        &plot.left.ledger,
        &plot.left.cells,
        &steps,
        plot.run.order.as_bytes(),
    ];
    for number in numbers {
        bytes.extend(number.to_le_bytes());
    }
    for field in fields {
        bytes.extend((field.len() as u64).to_le_bytes());
        bytes.extend(field);
    }
}

fn decode(bytes: &[u8]) -> Option<Plot> {
    let mut reader = Reader(bytes);
    let small = |number: Option<u64>| u16::try_from(number?).ok();
    let (capacity, cells) = (small(reader.number())?, small(reader.number())?);
    let (budget, bound) = (small(reader.number())?, small(reader.number())?);
    let (answer, profiled, seconds) = (reader.number()?, reader.number()?, reader.number()?);
    let (graph, arrays) = (reader.field()?, reader.field()?);
    let (inputs, picks) = (reader.field()?, reader.field()?);
    let (ledger, left_cells, steps) = (reader.field()?, reader.field()?, reader.field()?);
    let order = String::from_utf8(reader.field()?).ok()?;
    let request = Request {
        graph,
        arrays,
        inputs,
        picks,
        budget,
        bound,
        capacity,
        cells,
    };
    Some(Plot {
        run: Run {
            request,
            order,
            seconds,
        },
        left: Left {
            answer,
            ledger,
            cells: left_cells,
        },
        profile: Profile {
            answer: profiled,
            steps: Step::all(&steps),
        },
        asked: None,
    })
}

/// Bytes that are still to be read.
struct Reader<'b>(&'b [u8]);

impl Reader<'_> {
    fn take(&mut self, length: usize) -> Option<&[u8]> {
        let (taken, rest) = self.0.split_at_checked(length)?;
        self.0 = rest;
        Some(taken)
    }

    fn number(&mut self) -> Option<u64> {
        let bytes: [u8; 8] = self.take(8)?.try_into().ok()?;
        Some(u64::from_le_bytes(bytes))
    }

    fn field(&mut self) -> Option<Vec<u8>> {
        let length = usize::try_from(self.number()?).ok()?;
        self.take(length).map(<[u8]>::to_vec)
    }
}
