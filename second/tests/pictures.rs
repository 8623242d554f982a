//! The pictures: well-formed, with no words over other words or outside the frame, and true to the sheets.

mod common;

use common::{accept, cells, stage};
use second::pictures::{all, holder, Index, Shown};
use second::random::Random;
use second::sheets::accepted;
use second::svg::{escaped, width};
use std::collections::HashMap;

/// An element: its name, its attributes and the text in it.
struct Element {
    name: String,
    attributes: HashMap<String, String>,
    text: String,
}

/// Every element in order, of a file that must be well-formed.
fn elements(file: &str) -> Vec<Element> {
    let (mut found, mut open) = (Vec::new(), Vec::new());
    for part in file.split('<').skip(1) {
        let (tag, text) = part.split_once('>').expect("every tag ends");
        assert!(
            !text.contains('>'),
            "a sign that is not written out: {text}"
        );
        let named = ["&amp;", "&lt;", "&gt;", "&quot;"];
        let signs: usize = named.iter().map(|name| text.matches(name).count()).sum();
        assert_eq!(text.matches('&').count(), signs, "{text}");
        if tag.starts_with("!--") {
            continue;
        }
        if let Some(name) = tag.strip_prefix('/') {
            assert_eq!(open.pop().as_deref(), Some(name), "tags nest");
            continue;
        }
        let closed = tag.strip_suffix('/');
        let (name, attributes) = read_tag(closed.unwrap_or(tag));
        if closed.is_none() {
            open.push(name.clone());
        }
        let text = text.to_string();
        found.push(Element {
            name,
            attributes,
            text,
        });
    }
    assert!(open.is_empty(), "every tag is closed");
    found
}

/// A tag's name and its attributes, each in quotes and there once.
fn read_tag(tag: &str) -> (String, HashMap<String, String>) {
    let (name, mut rest) = tag.split_once(' ').unwrap_or((tag, ""));
    let mut attributes = HashMap::new();
    while !rest.is_empty() {
        let (key, value) = rest.split_once("=\"").expect("a quoted attribute");
        let (value, after) = value.split_once('"').expect("its quotes end");
        let twice = attributes.insert(key.to_string(), value.to_string());
        assert_eq!(twice, None, "{tag}");
        rest = after.trim_start();
    }
    (name.to_string(), attributes)
}

impl Element {
    fn number(&self, key: &str) -> Option<f64> {
        self.attributes.get(key).map(|value| value.parse().unwrap())
    }

    /// About where the words stand: left, top, right and bottom.
    fn frame(&self) -> [f64; 4] {
        let (x, y) = (self.number("x").unwrap(), self.number("y").unwrap());
        let size = self.number("font-size").unwrap_or(13.0);
        let words = self.text.replace("&amp;", "&").replace("&quot;", "\"");
        let bold = self.attributes.contains_key("font-weight");
        let wide = width(&words, size) * if bold { 1.08 } else { 1.0 };
        let left = match self.attributes["text-anchor"].as_str() {
            "start" => x,
            "middle" => x - wide / 2.0,
            _ => x - wide,
        };
        [left, y - 0.75 * size, left + wide, y + 0.2 * size]
    }
}

/// Every picture that is drawn, and that of endurance as it is kept.
fn files() -> Vec<(String, String)> {
    let drawn = all().map(|(name, text)| (name.to_string(), text));
    let kept = concat!(env!("CARGO_MANIFEST_DIR"), "/../docs/endurance.svg");
    let kept = (
        "endurance.svg".to_string(),
        std::fs::read_to_string(kept).unwrap(),
    );
    drawn.into_iter().chain([kept]).collect()
}

#[test]
fn every_picture_has_a_title_and_a_ground() {
    for (name, file) in files() {
        let elements = elements(&file);
        assert_eq!(elements[0].name, "svg", "{name}");
        assert_eq!(elements[1].name, "title", "{name}");
        assert!(elements[1].text.len() > 20, "{name}");
        assert_eq!(elements[2].attributes["fill"], "#ffffff", "{name}");
    }
}

#[test]
fn no_words_overlap_or_leave_the_frame() {
    for (name, file) in files() {
        let elements = elements(&file);
        let size = ["width", "height"].map(|key| elements[0].number(key).unwrap());
        let words: Vec<&Element> = elements.iter().filter(|one| one.name == "text").collect();
        assert!(words.len() > 20, "{name}");
        for (place, one) in words.iter().enumerate() {
            let [left, top, right, bottom] = one.frame();
            let inside = left > 4.0 && top > 4.0 && right < size[0] - 4.0 && bottom < size[1] - 4.0;
            assert!(inside, "{name}: {} leaves the frame", one.text);
            for other in &words[..place] {
                let [l, t, r, b] = other.frame();
                let apart = right <= l || r <= left || bottom <= t || b <= top;
                assert!(apart, "{name}: {} is over {}", one.text, other.text);
            }
        }
    }
}

#[test]
fn no_shape_leaves_the_frame() {
    for (name, file) in files() {
        let elements = elements(&file);
        let size = ["width", "height"].map(|key| elements[0].number(key).unwrap());
        for one in elements.iter().filter(|one| one.name == "rect") {
            let [x, y, wide, high] =
                ["x", "y", "width", "height"].map(|key| one.number(key).unwrap());
            let inside = x >= 0.0 && y >= 0.0 && x + wide <= size[0] && y + high <= size[1];
            assert!(inside, "{name}: {x} {y}");
        }
    }
}

/// The digits of one size that stand in the middle of something, in order.
fn digits(file: &str, size: &str) -> Vec<u8> {
    let is_digit = |one: &Element| {
        let sized = one.attributes.get("font-size").map(String::as_str) == Some(size);
        one.name == "text" && sized && one.attributes["text-anchor"] == "middle"
    };
    let found = elements(file).into_iter().filter(is_digit);
    found.flat_map(|one| cells(&one.text)).collect()
}

#[test]
fn the_move_is_the_one_of_the_rules() {
    let [_, _, _, (name, file)] = all();
    assert_eq!(name, "move.svg");
    let rows = [
        "1000 0100 0010 2222 00 00 00 00 00 00",
        "1010 0110 0010 2222 01 02 10 11 00 00",
        "1020 0110 0010 2222 01 02 10 11 00 00",
        "1021 0110 0010 2222 01 02 10 11 00 00",
        "1022 0110 0010 2222 01 22 10 11 00 00",
        "1022 0110 1010 2222 01 22 10 11 02 00",
    ];
    assert_eq!(digits(&file, "12"), cells(&rows.concat()));
    for levels in ["8 levels raised", "1 level raised", "3 levels raised"] {
        assert!(file.contains(levels));
    }
}

#[test]
fn the_cycle_is_the_one_of_the_rules() {
    let [(name, file), ..] = all();
    assert_eq!(name, "cycle.svg");
    let steps = "0000 0100 0200 0210 0220 0221 0222 1222 2222";
    let drawn: Vec<u8> = elements(&file)
        .into_iter()
        .filter(|one| one.name == "text" && !one.attributes.contains_key("font-size"))
        .flat_map(|one| cells(&one.text))
        .collect();
    assert_eq!(drawn, cells(steps));
}

/// A change of the bit raises the first of these cells that it may, and nothing before the batches but there.
fn raises(settings: &second::Settings, sheet: &[u8], bit: usize, within: std::ops::Range<usize>) {
    let mut after = sheet.to_vec();
    assert_eq!(second::change(settings, &mut after, bit).number(), 0);
    let raised = (0..settings.m * settings.k).filter(|&cell| after[cell] != sheet[cell]);
    assert!(raised.clone().count() == 1 && raised.clone().all(|cell| within.contains(&cell)));
}

#[test]
fn blocks_hold_the_bits_that_the_pictures_say() {
    let mut random = Random::new(7);
    for settings in [
        accept(1, 8, 3, 130),
        accept(1, 4, 1, 60),
        accept(1, 16, 2, 800),
    ] {
        for round in 0..60 {
            let sheet = accepted(&mut random, &settings, round % settings.s);
            let shown = Shown {
                settings,
                before: sheet.clone(),
                cells: sheet.clone(),
                raised: 0,
                changes: 0,
            };
            let r = shown.stage();
            assert_eq!(r, stage(&settings, &sheet));
            if r == 0 {
                for j in 0..settings.m {
                    if let Some(bit) = holder(&settings, &sheet[shown.block(j)]) {
                        raises(&settings, &sheet, bit, shown.block(j));
                    }
                }
                continue;
            }
            let indexes = shown.index_blocks(r);
            for parity in shown.parity_blocks(r) {
                let Some(slot) = parity.slot else { continue };
                if let Index::Bit(bit) = shown.index(indexes[slot].clone()) {
                    raises(&settings, &sheet, bit, parity.cells);
                }
            }
        }
    }
}

#[test]
fn signs_of_xml_are_written_out() {
    assert_eq!(
        escaped("a < b & \"c\" > d"),
        "a &lt; b &amp; &quot;c&quot; &gt; d"
    );
}
