//! The command line.

use std::path::PathBuf;
use std::str::FromStr;

use clap::{Args, Parser, Subcommand, ValueEnum};
use ttda::widths::{BOUNDS, MOST_CELLS, MOST_RECORDS};

use crate::curves::Pace;
use crate::failure::Failure;
use crate::machine::{Sizes, WHOLE};
use crate::orders::{self, Order};

/// Runs, checks, compares and draws graphs of the MIT tagged-token dataflow machine, on an engine whose answers are proved.
#[derive(Debug, Parser)]
#[command(name = "dayomlak", version, propagate_version = true)]
#[command(
    after_help = "FILE is a typed graph (.ttda), a folder with the files graph, arrays, inputs and picks, or - for standard \
    input; trace and report take a saved run too.\nExit status: 0 completed; 1 hung, spent or refused; 2 a wrong command \
    line, text or log, or a damaged file; 3 a file that cannot be read or written.\n\nTry: dayomlak run sum.ttda"
)]
pub struct Cli {
    #[command(subcommand)]
    pub command: Command,
}

#[derive(Debug, Subcommand)]
pub enum Command {
    /// Run a graph: the answer, results, waiting tokens and cells
    Run(Run),
    /// Run a graph whose inputs are known only between limits, such as 3..5
    Ranges(Ranges),
    /// Carry on with a run that was saved
    CarryOn(CarryOn),
    /// What stands where in a saved run: answer, enabled activities, tokens, cells
    Show(Show),
    /// Find errors and warnings, and what the graph needs, without a firing
    Check(Check),
    /// Run a graph oldest first, newest first and in random orders, or in orders of your own
    Compare(Compare),
    /// At which firing two runs part, and that they end alike
    Diff(Diff),
    /// Fire a graph by hand, in a terminal
    Step(Step),
    /// Type a graph and fire it by hand, in a browser on this computer
    Studio(Studio),
    /// Show every firing: operands, outputs and cells
    Trace(Trace),
    /// Firings and tokens by ideal steps (Memo 280), as a table or a picture
    Profile(Profile),
    /// Which instruction fires when, as a picture or for GTKWave
    Timeline(Timeline),
    /// One page for a browser: the graph firing by firing, curves and listing
    Report(Report),
    /// Draw the graph (Graphviz)
    Draw(Draw),
    /// Write the log of a run, for others to replay
    Log(Log),
    /// Fire exactly the activities of a log
    Replay(Replay),
    /// Make the files graph, arrays, inputs and picks of a typed graph
    Asm(Asm),
    /// Print the text of the files in a folder
    Disasm(Disasm),
    /// The value and the graph of an expression such as 'a * (b + c) % 3'
    Expression(Expression),
    /// Widen files of before paths of eight levels: inputs, listings, logs
    Convert(Convert),
    /// What a refusal means and what to do
    Explain(Explain),
    /// How many firings and tokens no run exceeds, of a graph without loops and calls
    Bounds(Bounds),
    /// Print the words that a shell completes
    Completion(Completion),
    /// Print the manual page, for `man`
    Manual,
}

impl Command {
    /// The name of a command and its file, where it prints for a script.
    pub fn scripted(&self) -> Option<(&'static str, &str)> {
        let (name, script, file) = match self {
            Command::Run(args) => ("run", &args.script, args.file.file.as_str()),
            Command::Ranges(args) => ("ranges", &args.script, args.file.file.as_str()),
            Command::CarryOn(args) => ("carry-on", &args.script, args.file.as_str()),
            Command::Show(args) => ("show", &args.script, args.file.as_str()),
            Command::Check(args) => ("check", &args.script, args.file.file.as_str()),
            Command::Compare(args) => ("compare", &args.script, args.file.file.as_str()),
            Command::Diff(args) => ("diff", &args.script, args.file.file.as_str()),
            Command::Trace(args) => ("trace", &args.form.script, args.file.file.as_str()),
            Command::Profile(args) => {
                let first = args.files.first().map_or("", String::as_str);
                ("profile", &args.form.script, first)
            }
            Command::Bounds(args) => ("bounds", &args.script, args.file.file.as_str()),
            Command::Explain(args) => ("explain", &args.script, ""),
            _ => return None,
        };
        script.json.then_some((name, file))
    }

    /// A failure with what to do where this command is given a saved state and takes none.
    pub fn advised(&self, failure: Failure) -> Failure {
        let Failure::SavedState(label) = &failure else {
            return failure;
        };
        let from_inputs = "of a run from its inputs";
        let (name, why) = match self {
            Command::Run(_) => ("run", "`dayomlak carry-on` goes on from it".to_string()),
            Command::Ranges(_) => ("ranges", format!("ranges are {from_inputs}")),
            Command::Profile(_) => ("profile", format!("a profile is {from_inputs}")),
            Command::Timeline(_) => ("timeline", format!("a timeline is {from_inputs}")),
            Command::Log(_) => ("log", format!("a log is {from_inputs}")),
            Command::Replay(_) => ("replay", format!("a log is {from_inputs}")),
            Command::Bounds(_) => ("bounds", format!("bounds are {from_inputs}")),
            Command::Compare(_) => (
                "compare",
                "`dayomlak carry-on --order ORDER` goes on from it in one order".to_string(),
            ),
            Command::Diff(_) => ("diff", "`dayomlak trace` shows what it fires".to_string()),
            Command::Step(_) => ("step", "`dayomlak carry-on` goes on from it".to_string()),
            Command::Studio(_) => ("studio", "`dayomlak show` looks at it".to_string()),
            Command::Check(_) => ("check", "`dayomlak show` looks at it".to_string()),
            Command::Draw(_) => (
                "draw",
                "`dayomlak report` shows it on its graph".to_string(),
            ),
            _ => ("asm", "`dayomlak show` looks at it".to_string()),
        };
        let graph = "its graph is had by `dayomlak show --text`";
        Failure::Wrong(format!(
            "{label} is a saved state, which `dayomlak {name}` does not take\n  {why}; {graph}"
        ))
    }
}

#[derive(Debug, Args)]
pub struct Script {
    /// Print one line of JSON, for scripts
    #[arg(long)]
    pub json: bool,
}

#[derive(Debug, Args)]
pub struct Form {
    #[command(flatten)]
    pub script: Script,
    /// Print a table of values parted by commas
    #[arg(long, conflicts_with = "json")]
    pub csv: bool,
}

#[derive(Debug, Args)]
pub struct Check {
    #[command(flatten)]
    pub file: File,
    /// End with exit status 1 where there is a warning
    #[arg(long)]
    pub strict: bool,
    #[command(flatten)]
    pub script: Script,
}

#[derive(Debug, Args)]
pub struct Bounds {
    #[command(flatten)]
    pub file: File,
    #[command(flatten)]
    pub script: Script,
}

#[derive(Debug, Args)]
pub struct Completion {
    /// The shell
    #[arg(value_name = "SHELL", value_enum)]
    pub shell: clap_complete::Shell,
}

/// A number of the command line.
fn up_to<const MOST: u16>(word: &str) -> Result<u16, String> {
    let number = word.parse().ok().filter(|number| *number <= MOST);
    number.ok_or(format!("it is a number from 0 to {MOST}"))
}

/// A loop bound of the command line.
fn bound(word: &str) -> Result<u16, String> {
    let number = word.parse().ok();
    let bound = number.filter(|number| *number == 0 || BOUNDS.contains(number));
    bound.ok_or("a bound is 0 for none, or 2 to 256 (else 21, bad bound)".to_string())
}

/// How many may fire in a step.
fn pace(word: &str) -> Result<Pace, String> {
    let number = word.parse().ok().filter(|number| *number > 0);
    match (word, number) {
        ("any", _) => Ok(Pace::Ideal),
        (_, Some(most)) => Ok(Pace::Processors(most)),
        _ => Err("it is a number from 1 to 65535, or any".to_string()),
    }
}

/// Picks of the command line.
fn picks(word: &str) -> Result<Order, String> {
    orders::picks(word).map(Order::Picks)
}

#[derive(Debug, Args)]
pub struct File {
    /// A typed graph, a folder with its files, or -
    #[arg(value_name = "FILE")]
    pub file: String,
}

#[derive(Debug, Args)]
pub struct Buffers {
    /// Records of the ledger, which keeps every token [default: 2048]
    #[arg(long, value_name = "N", value_parser = up_to::<{ MOST_RECORDS as u16 }>)]
    capacity: Option<u16>,
    /// I-structure cells [default: 1024]
    #[arg(long, value_name = "N", value_parser = up_to::<{ MOST_CELLS as u16 }>)]
    cells: Option<u16>,
}

impl Buffers {
    pub fn sizes(&self) -> Sizes {
        let most = Sizes::default();
        Sizes {
            capacity: self.capacity.map_or(most.capacity, usize::from),
            cells: self.cells.map_or(most.cells, usize::from),
        }
    }

    /// Whether one of them is given, and not left as it is.
    pub fn are_chosen(&self) -> bool {
        self.capacity.is_some() || self.cells.is_some()
    }
}

#[derive(Debug, Args)]
pub struct Bounding {
    /// The loop bound: a NEXT that would make iteration m is held back while its path has a token at work at m - K or
    /// less; 0 for none, or 2 to 256
    #[arg(long, value_name = "K", value_parser = bound)]
    pub bound: Option<u16>,
}

impl Bounding {
    /// The bound that is given, or none.
    pub fn or_none(&self) -> u16 {
        self.bound.unwrap_or(0)
    }
}

#[derive(Debug, Args)]
pub struct Firing {
    /// Which enabled activity fires next: oldest, newest, random:SEED, picks such as 0,3,1, a file with a name for each
    /// firing, or typed (the picks or the order of the graph's file, oldest without)
    #[arg(long, value_name = "ORDER", default_value_t = Order::Typed)]
    order: Order,
    /// The same as --order with picks: the number of each firing among the enabled, as `dayomlak trace` shows it
    #[arg(long, value_name = "N,N..", conflicts_with = "order", value_parser = picks)]
    picks: Option<Order>,
    /// The most firings
    #[arg(long, value_name = "N", default_value_t = WHOLE, value_parser = up_to::<{ u16::MAX }>)]
    pub budget: u16,
    #[command(flatten)]
    pub bounding: Bounding,
}

impl Firing {
    pub fn order(&self) -> Order {
        self.picks.clone().unwrap_or(self.order.clone())
    }
}

#[derive(Debug, Args)]
pub struct Run {
    #[command(flatten)]
    pub file: File,
    #[command(flatten)]
    pub script: Script,
    #[command(flatten)]
    pub firing: Firing,
    #[command(flatten)]
    pub buffers: Buffers,
    /// Save what the run leaves, for `dayomlak carry-on`
    #[arg(long, value_name = "X.saved")]
    pub save: Option<PathBuf>,
    /// Print the listing, byte for byte as the program ttda does
    #[arg(long, conflicts_with = "json")]
    pub listing: bool,
}

#[derive(Debug, Args)]
#[command(
    after_help = "A range is typed as `input x.0 = 3..5`, `cell 3 = 7..9` or `a[2] = 1..4`, both ends included. If the run completes or \
    hangs, so does the plain run of every choice of inputs within their ranges, with as many firings, and every value lies \
    in the range that is shown for it.\n\nTry: dayomlak ranges speed.ttda --sample 1000 -o speed.svg"
)]
pub struct Ranges {
    #[command(flatten)]
    pub file: File,
    #[command(flatten)]
    pub script: Script,
    #[command(flatten)]
    pub firing: Firing,
    #[command(flatten)]
    pub buffers: Buffers,
    #[command(flatten)]
    pub sampling: Sampling,
    /// Where a picture of the samples beside their ranges goes: X.svg, X.png or X.pdf
    #[arg(short, value_name = "X.svg", requires = "sample")]
    pub output: Option<PathBuf>,
}

#[derive(Debug, Args)]
pub struct Sampling {
    /// Make so many plain runs too, 1 to 100000, their inputs chosen at random within their ranges, and compare each with
    /// what is promised
    #[arg(long, value_name = "N", value_parser = clap::value_parser!(u32).range(1..=100_000))]
    pub sample: Option<u32>,
    /// Which random inputs these are
    #[arg(long, value_name = "SEED", default_value_t = 1, requires = "sample")]
    pub seed: u64,
}

#[derive(Debug, Args)]
#[command(
    after_help = "Carried on in the order that it began in, a run ends as if it had never been stopped. The answer counts all \
    firings since the inputs.\n\nTry: dayomlak run sum.ttda --budget 10 --save sum.saved"
)]
pub struct CarryOn {
    /// A saved run, as `dayomlak run --save` writes it, or -
    #[arg(value_name = "X.saved")]
    pub file: String,
    #[command(flatten)]
    pub script: Script,
    /// Which enabled activity fires next: oldest, newest, random:SEED, picks or a file of names, for each firing since
    /// the inputs, or typed (the picks or the order of the graph's file that are left)
    #[arg(long, value_name = "ORDER", default_value_t = Order::Typed)]
    pub order: Order,
    /// The most firings of this part
    #[arg(long, value_name = "N", default_value_t = WHOLE)]
    pub budget: u16,
    /// The loop bound from here on, 0 for none, or 2 to 256 [default: that of the saved run]
    #[arg(long, value_name = "K", value_parser = bound)]
    pub bound: Option<u16>,
    /// Save what this part leaves, for `dayomlak carry-on`
    #[arg(long, value_name = "Y.saved")]
    pub save: Option<PathBuf>,
    /// Print the listing, byte for byte as the program ttda does
    #[arg(long, conflicts_with = "json")]
    pub listing: bool,
}

#[derive(Debug, Args)]
pub struct Show {
    /// A saved run, as `dayomlak run --save` writes it, or -
    #[arg(value_name = "X.saved")]
    pub file: String,
    #[command(flatten)]
    pub script: Script,
    /// Print the graph as it was typed, with its inputs and picks, instead
    #[arg(long, conflicts_with = "json")]
    pub text: bool,
}

#[derive(Debug, Args)]
pub struct Compare {
    #[command(flatten)]
    pub file: File,
    #[command(flatten)]
    pub script: Script,
    /// Orders to run it in, besides oldest first, each as `dayomlak run --order` takes it
    #[arg(value_name = "ORDER")]
    pub given: Vec<Order>,
    /// How many random orders [default: 100, or none beside an ORDER]
    #[arg(long, value_name = "N")]
    pub orders: Option<u32>,
    #[command(flatten)]
    pub bounding: Bounding,
    #[command(flatten)]
    pub buffers: Buffers,
}

#[derive(Debug, Args)]
#[command(
    after_help = "An ORDER is what `dayomlak run --order` takes.\n\nTry: dayomlak diff sum.ttda oldest newest"
)]
pub struct Diff {
    #[command(flatten)]
    pub file: File,
    /// The order of one run
    #[arg(value_name = "ORDER")]
    pub one: Order,
    /// The order of the other
    #[arg(value_name = "ORDER")]
    pub other: Order,
    #[command(flatten)]
    pub script: Script,
    #[command(flatten)]
    pub bounding: Bounding,
    #[command(flatten)]
    pub buffers: Buffers,
}

#[derive(Debug, Args)]
#[command(
    after_help = "Arrow keys or a number choose, Enter fires; b goes back, p plays oldest first, w writes the order so far into a \
    file for --order, q quits.\nWithout a terminal each line of standard input is a command: a number or a name, b, p, w \
    FILE, q.\n\nTry: dayomlak step sum.ttda"
)]
pub struct Step {
    #[command(flatten)]
    pub file: File,
    /// Read lines, also in a terminal
    #[arg(long)]
    pub lines: bool,
    #[command(flatten)]
    pub bounding: Bounding,
    #[command(flatten)]
    pub buffers: Buffers,
}

#[derive(Debug, Args)]
#[command(
    after_help = "It prints an address, to be opened in a browser on this computer, and serves nobody else; Ctrl-C ends it. Nothing is \
    written but FILE, when you press Save, with the order of the firings if you want.\nOn the page 0 to 9 fire, the arrow keys go forth and back, \
    Space plays and Ctrl-S saves.\n\nTry: dayomlak studio sum.ttda"
)]
pub struct Studio {
    /// A typed graph, which is made by Save if it is not there yet
    #[arg(value_name = "FILE")]
    pub file: String,
    /// The port of the address [default: one that is free]
    #[arg(long, value_name = "N", value_parser = up_to::<{ u16::MAX }>)]
    pub port: Option<u16>,
    #[command(flatten)]
    pub buffers: Buffers,
}

#[derive(Debug, Args)]
pub struct Trace {
    #[command(flatten)]
    pub file: File,
    #[command(flatten)]
    pub form: Form,
    /// The first firing to show, counted from 1
    #[arg(long, value_name = "N", default_value_t = 1)]
    pub from: usize,
    /// How many firings to show
    #[arg(long, value_name = "N")]
    pub count: Option<usize>,
    /// The firings alone, without what is enabled before each
    #[arg(long)]
    pub short: bool,
    #[command(flatten)]
    pub firing: Firing,
    #[command(flatten)]
    pub buffers: Buffers,
}

#[derive(Debug, Args)]
#[command(
    after_help = "Several files, or several --processors, stand in one plot or below each other.\n\n\
    Try: dayomlak profile sum.ttda --processors any --processors 2 -o X.svg"
)]
pub struct Profile {
    /// Typed graphs, folders with their files, or -
    #[arg(value_name = "FILE", required = true)]
    pub files: Vec<String>,
    #[command(flatten)]
    pub form: Form,
    /// Draw the curves: X.svg, X.png or X.pdf; those of one profile with what a run left
    #[arg(short, value_name = "X.svg", conflicts_with_all = ["json", "csv"])]
    pub output: Option<PathBuf>,
    /// The most firings of a step, those first that were enabled first, or any for ideal steps
    #[arg(long, value_name = "N", value_parser = pace)]
    pub processors: Vec<Pace>,
    /// Tokens by the firings of one run instead of steps
    #[arg(long, conflicts_with = "processors")]
    pub firings: bool,
    /// Tokens by the firings of a run with this loop bound, 2 to 256; steps take no bound
    #[arg(long, value_name = "K", value_parser = bound, conflicts_with = "processors")]
    pub bound: Vec<u16>,
    /// Beside these, tokens by the firings of the run without a bound
    #[arg(long, conflicts_with = "processors")]
    pub none: bool,
    /// The order of that run, as for `dayomlak run`; only with --firings, --bound or -o
    #[arg(long, value_name = "ORDER")]
    pub order: Option<Order>,
    /// The most firings of that run; only with --firings, --bound or -o
    #[arg(long, value_name = "N", value_parser = up_to::<{ u16::MAX }>)]
    pub budget: Option<u16>,
    #[command(flatten)]
    pub buffers: Buffers,
}

#[derive(Debug, Args)]
#[command(
    after_help = "In a file X.vcd (value change dump) instructions are wires that are 1 while they fire, cells are values, x \
    while absent and z while waiting.\n\nTry: dayomlak timeline sum.ttda --steps -o X.svg"
)]
pub struct Timeline {
    #[command(flatten)]
    pub file: File,
    /// Where it goes: X.svg, X.png, X.pdf, or X.vcd for GTKWave
    #[arg(short, value_name = "X.svg")]
    pub output: PathBuf,
    /// By ideal steps, and not firing by firing
    #[arg(long, conflicts_with_all = ["order", "picks", "budget", "bound"])]
    pub steps: bool,
    /// By steps of at most so many firings, those first that were enabled first, or any for ideal steps
    #[arg(long, value_name = "N", value_parser = pace, conflicts_with_all = ["order", "picks", "budget", "bound"])]
    pub processors: Option<Pace>,
    #[command(flatten)]
    pub firing: Firing,
    #[command(flatten)]
    pub buffers: Buffers,
}

#[derive(Debug, Args)]
#[command(
    after_help = "The page needs no other file and no network. It opens at firing 12 by X.html#firing=12. A refused run has \
    a page too, and opens where it was refused.\nOn the page Space plays, a click on an instruction shows its tokens, and one on a curve goes to \
    its step. Printed, it has the whole graph and listing.\nThe seconds since 1970 in SOURCE_DATE_EPOCH stand in for the clock, so that a page comes out the same again."
)]
pub struct Report {
    #[command(flatten)]
    pub file: File,
    /// Where the page goes
    #[arg(short, value_name = "X.html")]
    pub output: PathBuf,
    #[command(flatten)]
    pub firing: Firing,
    #[command(flatten)]
    pub buffers: Buffers,
}

#[derive(Debug, Args)]
pub struct Draw {
    #[command(flatten)]
    pub file: File,
    /// The text for Graphviz instead of the picture
    #[arg(long)]
    pub dot: bool,
    /// Where the picture goes, X.svg, X.png or X.pdf; standard output without
    #[arg(short, value_name = "X.svg")]
    pub output: Option<PathBuf>,
}

#[derive(Debug, Args)]
pub struct Log {
    #[command(flatten)]
    pub file: File,
    /// Where the log goes
    #[arg(short, value_name = "LOG")]
    pub output: PathBuf,
    /// Write the records alone, 20 bytes for each firing, which name no run
    #[arg(long)]
    pub records: bool,
    #[command(flatten)]
    pub firing: Firing,
    #[command(flatten)]
    pub buffers: Buffers,
}

#[derive(Debug, Args)]
pub struct Replay {
    #[command(flatten)]
    pub file: File,
    /// A log, as `dayomlak log` writes it
    #[arg(value_name = "LOG")]
    pub log: PathBuf,
    /// Replay the log of another run: another graph, other inputs, another capacity or cell count
    #[arg(long)]
    pub anyway: bool,
    #[command(flatten)]
    pub buffers: Buffers,
    /// Print the listing, byte for byte as the program ttda does
    #[arg(long)]
    pub listing: bool,
}

#[derive(Debug, Args)]
pub struct Asm {
    #[command(flatten)]
    pub file: File,
    /// Where the files go; it is made if it is not there
    #[arg(value_name = "FOLDER")]
    pub folder: PathBuf,
}

#[derive(Debug, Args)]
pub struct Disasm {
    /// The folder with the files; a missing one counts as empty
    #[arg(value_name = "FOLDER")]
    pub folder: PathBuf,
}

#[derive(Debug, Args)]
#[command(
    after_help = "Operations, the tightest first: * / %, then + -, then < <=, then ==; those in one group go from the left. A \
    comparison gives 1 or 0. Values are whole numbers of 32 signed bits.\nThe graph is drawn, traced and profiled as any \
    other: dayomlak draw X.ttda.\n\nTry: dayomlak expression 'a * (b + c) % 3' a=2 b=5 c=-1 -o X.ttda"
)]
pub struct Expression {
    /// Names, constants, + - * / % < <= == and parentheses
    #[arg(value_name = "EXPRESSION", allow_hyphen_values = true)]
    pub text: String,
    /// The value of each name
    #[arg(value_name = "NAME=VALUE")]
    pub values: Vec<Value>,
    /// Where the typed graph goes
    #[arg(short, value_name = "X.ttda")]
    pub output: Option<PathBuf>,
}

/// A name with its value.
#[derive(Clone, Debug, PartialEq, Eq)]
pub struct Value {
    pub name: String,
    pub value: i32,
}

impl FromStr for Value {
    type Err = String;

    fn from_str(text: &str) -> Result<Value, String> {
        let Some((name, value)) = text.split_once('=') else {
            return Err("a value is given as NAME=VALUE, such as a=5".to_string());
        };
        let value = value.parse().map_err(|_| {
            format!("`{value}` is no whole number from -2,147,483,648 to 2,147,483,647")
        })?;
        Ok(Value {
            name: name.to_string(),
            value,
        })
    }
}

#[derive(Debug, Args)]
#[command(
    after_help = "Token records grow from 20 to 28 bytes, log records from 12 to 20. Of a folder the files graph, arrays and \
    picks are copied, and inputs is widened. What OLD is, is seen by its length, and by its bytes where several kinds have that length."
)]
pub struct Convert {
    /// Inputs, a listing or a log, or a folder with the files of a graph
    #[arg(value_name = "OLD")]
    pub old: PathBuf,
    /// Where the new records go; a folder for a folder
    #[arg(value_name = "NEW")]
    pub new: PathBuf,
    /// What OLD is, where that is in doubt
    #[arg(long = "as", value_name = "KIND")]
    pub kind: Option<Kind>,
    /// Overwrite what is there
    #[arg(long)]
    pub force: bool,
}

/// A file in records of before.
#[derive(Clone, Copy, Debug, ValueEnum)]
pub enum Kind {
    Inputs,
    Listing,
    Log,
}

#[derive(Debug, Args)]
pub struct Explain {
    /// The number of a refusal
    #[arg(value_name = "N", value_parser = up_to::<{ u16::MAX }>)]
    pub number: u16,
    #[command(flatten)]
    pub script: Script,
}
