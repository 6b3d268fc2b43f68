//! The style of a page: the sheet, and that each point lights its row, and the row its bar.

use super::html::{Html, html};
use crate::timeline::ObjectDrawing;
use std::collections::BTreeSet;

/// On a page of more points none lights its row: a browser looks at each of these rules whenever
/// the mouse moves, and takes seconds to read the page.
const MOST_LIT: usize = 100;

/// The points of a page: operation, object and rank.
fn points_of(drawings: &[ObjectDrawing]) -> BTreeSet<(u32, u32, u32)> {
    let points = drawings.iter().flat_map(|drawing| {
        let lines = drawing.figures().flat_map(|figure| &figure.lines);
        let points = lines.flat_map(|line| &line.points);
        points.map(|point| (point.operation.number(), drawing.object, point.rank))
    });
    points.collect()
}

/// That the row and the bar of a point light each other.
fn light((operation, object, rank): &(u32, u32, u32)) -> Html {
    html![
        ":where(:root:has(#r",
        object,
        "-",
        rank,
        ":hover)) [data-op=\"",
        operation,
        "\"] .edge,:where(:root:has([data-op=\"",
        operation,
        "\"]:hover)) #r",
        object,
        "-",
        rank,
        "{stroke-width:3;outline:2px solid var(--hot)}\n"
    ]
}

pub fn style(drawings: &[ObjectDrawing]) -> Html {
    let mut sheet = Html::default();
    sheet.add_markup(include_str!("sheet.css"));
    let points = points_of(drawings);
    let lit = (points.len() <= MOST_LIT).then(|| points.iter().map(light).collect::<Html>());
    html!["<style>", sheet, lit, "</style>"]
}
