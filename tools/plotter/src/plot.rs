//! A plot: the profile of a graph with what a run left, and the words that say which run that was.

use std::error::Error;

use ttda::widths::WHOLE_BUDGET;

use crate::cache::Cache;
use crate::clock::date;
use crate::curves::{self, Picture, Steps};
use crate::engine::{Engine, Left, Profile, Request};
use crate::fingerprint::Fingerprint;

/// A run, and how a reader knows it.
#[derive(Clone, Debug, PartialEq, Eq)]
pub struct Run {
    pub request: Request,
    /// Its order in words.
    pub order: String,
    /// When it was made or asked for.
    pub seconds: u64,
}

impl Run {
    /// Its order, its loop bound if it has one, and its budget if that may stop it.
    pub fn words(&self) -> String {
        let mut words = self.order.clone();
        if self.request.bound != 0 {
            words += &format!(", bound {}", self.request.bound);
        }
        if self.request.budget != WHOLE_BUDGET {
            words += &format!(", budget {}", self.request.budget);
        }
        words
    }

    pub fn date(&self) -> String {
        date(self.seconds)
    }
}

#[derive(Clone, Debug, PartialEq, Eq)]
pub struct Plot {
    /// The run that was made: what is left is its own.
    pub run: Run,
    pub left: Left,
    pub profile: Profile,
    /// The run that was asked for, where what was kept serves it.
    pub asked: Option<Run>,
}

/// What a program says of a plot in its own words.
pub struct Words {
    pub title: String,
    /// How the run ended.
    pub run: String,
    /// How the profile ended, and what else there is to say of it.
    pub profile: Vec<String>,
    /// What the run left, by names.
    pub left: Vec<String>,
}

impl Plot {
    /// The plot of a run: the kept one where the engine says that it serves, else a new one, which is kept.
    pub fn of(engine: &impl Engine, cache: Option<&Cache>, asked: Run) -> Plot {
        let kept = cache.and_then(Cache::load);
        let serves = |kept: &Plot| engine.serves(&kept.run.request, &kept.left, &asked.request);
        if let Some(kept) = kept.filter(serves) {
            return Plot {
                asked: Some(asked),
                ..kept
            };
        }
        let plot = Plot {
            left: engine.run(&asked.request),
            profile: engine.profile(&asked.request),
            run: asked,
            asked: None,
        };
        if let Some(cache) = cache {
            cache.save(&plot);
        }
        plot
    }

    /// The run that was asked for, when, and why this one serves.
    pub fn asked_for(&self) -> Option<String> {
        let asked = self.asked.as_ref()?;
        let (own, other) = (&self.run.request, &asked.request);
        let is_ordered_alike = own.picks == other.picks;
        let reason = match (is_ordered_alike, own.budget == other.budget) {
            _ if own.bound != other.bound => "any order without a bound ends as this one",
            (true, true) => "the same run",
            (true, false) => "either budget is enough",
            (false, _) => "any order ends as this one",
        };
        let (words, date) = (asked.words(), asked.date());
        Some(format!("asked for: {words}, {date}; {reason}"))
    }

    /// What the plot is of, a line each.
    fn facts(&self, words: &Words) -> Vec<String> {
        let request = &self.run.request;
        let fingerprint = Fingerprint::of_run(&request.graph, &request.arrays, &request.inputs);
        let fingerprint = fingerprint.bounded(request.bound);
        let what = match request.bound {
            0 => "graph and inputs",
            _ => "graph, inputs and bound",
        };
        let (capacity, cells) = (request.capacity, request.cells);
        let lent = format!("{what} {fingerprint}, capacity {capacity}, {cells} cells");
        let run = format!("run of {}: {}", self.run.date(), words.run);
        let mut facts = vec![lent, run];
        facts.extend(self.asked_for());
        facts.extend(words.profile.clone());
        facts
    }

    /// The picture, with the curves of its profile.
    pub fn svg(&self, words: &Words, curves: Steps) -> Result<String, Box<dyn Error>> {
        curves::svg(&Picture {
            title: &words.title,
            facts: &self.facts(words),
            runs: &[(String::new(), curves)],
            left: &words.left,
        })
    }
}
