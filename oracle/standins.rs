// What the cut text leans on, for every program around it: oracle/main.rs and bench/rust_side.rs include this
// file before the cut text. Each stand-in has only what the cut functions look at. A program has beside it
// Cell and BTreeSet, and its own node of a document tree, DomNode with data and children, with type Handle = Rc<DomNode>.
// Whatever extract.py cuts out more needs its stand-in here.

use std::cell::RefCell;
use std::cmp::{max, min};
use std::collections::HashMap;
use std::io::{self, Write};
use std::rc::Rc;
use unicode_width::UnicodeWidthStr;

macro_rules! html_trace {
    ($($t:tt)*) => {};
}

#[derive(Debug)]
pub enum Error {
    Fail,
}

/// No style; it carries the sheet line, so that a filler and an extra row
/// (which the Rust makes with Default) have line 0.
#[derive(Debug, Clone, Default)]
struct ComputedStyle {
    line: usize,
}

struct HtmlContext {
    min_wrap_width: usize,
}

trait TextDecorator {
    fn header_prefix(&self, level: usize) -> String;
    fn quote_prefix(&self) -> String;
    fn unordered_item_prefix(&self) -> String;
    fn ordered_item_prefix(&self, i: i64) -> String;
}

/// docs/FORMAT.md's decorator.
struct Ours;

impl TextDecorator for Ours {
    fn header_prefix(&self, level: usize) -> String {
        "#".repeat(level) + " "
    }
    fn quote_prefix(&self) -> String {
        "> ".to_string()
    }
    fn unordered_item_prefix(&self) -> String {
        "* ".to_string()
    }
    fn ordered_item_prefix(&self, i: i64) -> String {
        format!("{}. ", i)
    }
}

struct RenderOptions {
    raw: bool,
    allow_width_overflow: bool,
}

#[derive(Debug)]
struct TooNarrow;

struct TextRenderer {
    width: usize,
    options: RenderOptions,
}

impl TextRenderer {
    fn width(&self) -> usize {
        self.width
    }
}

// The document tree: only what the four *_to_render_tree functions look at.
struct QualName {
    local: String,
}
struct Attribute {
    name: QualName,
    value: String,
}
enum NodeData {
    Element { attrs: RefCell<Vec<Attribute>> },
}
use NodeData::Element;

struct RenderInput {
    handle: Handle,
    parent_style: Rc<ComputedStyle>,
}

impl RenderInput {
    fn new(handle: Handle, parent_style: Rc<ComputedStyle>) -> Self {
        RenderInput {
            handle,
            parent_style,
        }
    }
    fn children(&self) -> Vec<RenderInput> {
        self.handle
            .children
            .borrow()
            .iter()
            .map(|c| RenderInput::new(c.clone(), self.parent_style.clone()))
            .collect()
    }
}
