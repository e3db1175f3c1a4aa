//! The profile plotter: the curves of Memo 280 with what a run left, and a cache of the last plot.
//!
//! It stands above the engine ([`Engine`]) and rests on the engine's promises. Whether a kept plot serves another run the
//! engine says; nothing of it is decided here. A plot names the run that it is of and, where another one was asked for,
//! that one too.
//!
//! Of a graph that adds 7 and -9:
//!
//! ```
//! use plotter::curves::Steps;
//! use plotter::{Library, Plot, Request, Run, Step, Words};
//! use ttda::layout::{input, instruction, ADD, OUT};
//!
//! // 0 is ADD to port 0 of 1, and 1 is OUT.
//! let graph = [instruction(ADD, &[(1, 0)], 0), instruction(OUT, &[], 0)].concat();
//! let inputs = [input(0, 0, 7), input(0, 1, -9)].concat();
//! let (arrays, picks) = (Vec::new(), Vec::new());
//! let (budget, bound, capacity, cells) = (9, 0, 9, 0);
//! let request = Request { graph, arrays, inputs, picks, budget, bound, capacity, cells };
//! let asked = Run { request, order: "oldest first".to_string(), seconds: plotter::now() };
//!
//! let plot = Plot::of(&Library, None, asked);
//! assert_eq!(plot.profile.steps, [Step { firings: 1, tokens: 1 }]);
//! let words = Words {
//!     title: "7 - 9".to_string(),
//!     run: "completed".to_string(),
//!     profile: Vec::new(),
//!     left: vec!["-2".to_string()],
//! };
//! let curves = Steps {
//!     what: "ideal step".to_string(),
//!     first: 1,
//!     firings: vec![1],
//!     tokens: vec![1],
//!     waiting: vec![0],
//!     ..Steps::default()
//! };
//! assert!(plot.svg(&words, curves).unwrap().starts_with("<svg"));
//! ```

mod cache;
mod clock;
pub mod curves;
mod engine;
mod fingerprint;
mod plot;

pub use cache::Cache;
pub use clock::{date, now};
pub use engine::{Engine, Left, Library, Profile, Request, Step};
pub use fingerprint::Fingerprint;
pub use plot::{Plot, Run, Words};
