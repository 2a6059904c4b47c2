//! The sheet: each triple of quarter turns with the one it is shown as.

use ksrs::shown;
use std::io::Write;

fn angles(turns: [u8; 3]) -> String {
    turns.map(|quarters| (u16::from(quarters) * 90).to_string()).join(" ")
}

pub fn run() -> std::io::Result<()> {
    let mut text = String::new();
    for (u, v, w) in (0..4).flat_map(|u| (0..4).flat_map(move |v| (0..4).map(move |w| (u, v, w)))) {
        let typed = [u, v, w];
        text += &format!("{} {}\n", angles(typed), angles(shown(typed)));
    }
    std::io::stdout().write_all(text.as_bytes())
}
