//! Answers of every size, from one line to the longest.
//!   graphs     paths of every number of arcs and barriers on every number of mate pairs, each checked as it is and spoiled
//!   stocks     rows of every number of cameras, and of every number of pairs

use crate::generate::shuffled_graph;
use crate::judge::{Judge, Trial};
use crate::large::{known_answer, try_stock};
use crate::shapes::{of_every_size, rows_of_every_size, spoiled};

pub fn graphs(judge: &mut Judge) -> Trial {
    of_every_size().try_for_each(|(graph, known)| {
        let answer = known_answer(judge, &graph, &known)?;
        judge.certificate(&graph.file(), &spoiled(&graph, &answer)?)?;
        let other = shuffled_graph(&mut judge.random, &graph);
        judge.made_graph(&other)
    })
}

pub fn stocks(judge: &mut Judge) -> Trial {
    rows_of_every_size().try_for_each(|(stock, standing)| try_stock(judge, &stock, Some(standing)))
}
