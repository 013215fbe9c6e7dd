//! The tries: which are chosen, and of each other one the values that speak against it.
use super::text::escape;
use crate::sheet::{pair, Sheet};
use crate::tries::{self, Step, Tried};
use damsonyet::Fate;

/// The values of a state in a box, with its name for those who do not see it; those that differ from the values before are marked.
fn values(sheet: &Sheet, name: &str, values: &[i16], before: &[i16]) -> String {
    let value = |(k, value): (usize, &i16)| {
        let class = if before.get(k) == Some(value) { "" } else { " class=\"changed\"" };
        format!("<span{class}>{} <b>{value}</b></span>", escape(&sheet.variable_name(k)))
    };
    let all: String = values.iter().enumerate().map(value).collect();
    format!("<span class=\"values\"><span class=\"hidden\">{name}:</span>{all}</span>")
}

/// The step that breaks a try: the values before, the region, the values after.
fn step(sheet: &Sheet, step: &Step) -> String {
    let (before, after) = (&step.before.1, &step.after.1);
    format!(
        "<p class=\"step\">{}<span class=\"by\"><span aria-hidden=\"true\">&#8594;</span> {} <code>{}</code> <span aria-hidden=\"true\">&#8594;</span></span>{}</p>\n",
        values(sheet, &format!("state {}", step.before.0), before, before),
        escape(&sheet.region_name(step.region.into())),
        pair(step.region),
        values(sheet, &format!("state {}", step.after.0), after, before)
    )
}

/// A list of the tries with their marks, conditions and reasons.
pub fn tries(sheet: &Sheet, all: &[Tried]) -> String {
    let mut out =
        format!("<p>{}; {}.</p>\n<ol class=\"tries\">\n", super::sentence(&tries::count(all)).trim_end_matches('.'), tries::kept(all));
    for (k, tried) in all.iter().enumerate() {
        let (class, fate, why) = match tried.fate {
            Fate::Chosen => ("yes", "chosen", String::new()),
            Fate::FalseAtStart => {
                let start = sheet.start_values();
                let says = "<p class=\"small\">The start values:</p>\n";
                ("no", "false at the start", format!("{says}<p class=\"step\">{}</p>\n", values(sheet, "start values", &start, &start)))
            }
            Fate::Broken { pass, region, state } => {
                let by = escape(&tries::breaker(sheet, all, pass, region));
                let says = format!("<p class=\"small\">In pass {pass} {by}, from state {state}:</p>\n");
                ("no", "broken", says + &tried.step.as_ref().map_or_else(String::new, |of| step(sheet, of)))
            }
        };
        out.push_str(&format!(
            "<li class=\"{class}\"><b class=\"fate\">{fate}</b><div>\n<p><span class=\"number\">t{}</span> <code>{}</code></p>\n{why}</div></li>\n",
            pair(k as u8),
            escape(&tried.text)
        ));
    }
    out.push_str("</ol>\n");
    for hint in tries::hints(all) {
        out.push_str(&format!("<p class=\"small\">{}</p>\n", escape(hint)));
    }
    out
}
