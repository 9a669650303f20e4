use roxmltree::{Attribute, Document, Node, ParsingOptions};
use std::hint::black_box;

extern "C" {
    fn turns_mark();
}

fn mark() {
    unsafe { turns_mark() }
}

#[no_mangle]
pub extern "C" fn turns_of_crate(text: *const u8, length: usize, work: u32, repeats: u32) -> u64 {
    let text = std::str::from_utf8(unsafe { std::slice::from_raw_parts(text, length) });
    let Ok(text) = text else { return 0 };
    let parse = |text| {
        Document::parse_with_options(text, ParsingOptions { allow_dtd: true, ..ParsingOptions::default() })
    };
    if work == 0 {
        let mut parsed = 0;
        mark();
        for _ in 0..repeats {
            parsed += black_box(parse(black_box(text))).is_ok() as u64;
        }
        mark();
        return parsed;
    }
    let Ok(document) = parse(text) else { return 0 };
    let mut sum = 0;
    mark();
    for _ in 0..repeats {
        sum = work_once(work, black_box(&document), sum);
    }
    mark();
    sum
}

fn work_once(work: u32, document: &Document, start: u64) -> u64 {
    match work {
        1 => walk(document, start),
        2 => walk_links(document, start),
        3 => look_for_one(document, start),
        4 => look_for_each(document, start),
        5 => look_for_namespaces(document, start),
        6 => look_for_prefixes(document, start),
        7..=17 => call_for_nodes(work, document, start),
        _ => call_for_contents(work, document, start),
    }
}

fn length(text: Option<&str>) -> u64 {
    text.map_or(0, |text| text.len() as u64)
}

fn on_nodes(document: &Document, start: u64, of: impl Fn(Node) -> u64) -> u64 {
    document.descendants().fold(start, |sum, node| sum + of(node))
}

#[inline(never)]
fn walk(document: &Document, start: u64) -> u64 {
    on_nodes(document, start, weight)
}

#[inline]
fn weight(node: Node) -> u64 {
    let mut sum = 1;
    if node.is_element() {
        let name = node.tag_name();
        sum += name.name().len() as u64 + length(name.namespace());
        for it in node.attributes() {
            sum += (it.name().len() + it.value().len()) as u64 + length(it.namespace());
        }
    } else if node.is_text() {
        sum += length(node.text());
    }
    sum
}

#[inline(never)]
fn walk_links(document: &Document, start: u64) -> u64 {
    let mut count = start;
    let mut next = Some(document.root());
    while let Some(node) = next {
        count += 1;
        next = node.first_child().or_else(|| {
            let mut last = node;
            loop {
                if let Some(sibling) = last.next_sibling() {
                    return Some(sibling);
                }
                last = last.parent()?;
            }
        });
    }
    count
}

#[inline(never)]
fn look_for_one(document: &Document, start: u64) -> u64 {
    on_nodes(document, start, |node| 1 + length(node.attribute("id")))
}

#[inline(never)]
fn look_for_each(document: &Document, start: u64) -> u64 {
    on_nodes(document, start, |node| 1 + node.attributes().map(|it| value_by_name(node, it)).sum::<u64>())
}

#[inline]
fn value_by_name(node: Node, attribute: Attribute) -> u64 {
    match attribute.namespace() {
        Some(uri) => length(node.attribute((uri, attribute.name()))),
        None => length(node.attribute(attribute.name())),
    }
}

#[inline(never)]
fn look_for_namespaces(document: &Document, start: u64) -> u64 {
    on_nodes(document, start, |node| {
        1 + length(node.lookup_namespace_uri(Some("xlink"))) + length(node.lookup_namespace_uri(None))
    })
}

#[inline(never)]
fn look_for_prefixes(document: &Document, start: u64) -> u64 {
    on_nodes(document, start, |node| 1 + length(node.lookup_prefix("http://www.w3.org/1999/xlink")))
}

fn number(node: Node) -> u64 {
    node.id().get() as u64
}

fn numbers<'a, 'input: 'a>(nodes: impl Iterator<Item = Node<'a, 'input>>) -> u64 {
    1 + nodes.map(number).sum::<u64>()
}

const SIBLINGS: usize = 4;

#[inline(never)]
fn call_for_nodes(work: u32, document: &Document, start: u64) -> u64 {
    match work {
        7 => on_nodes(document, start, |node| numbers(node.children())),
        8 => on_nodes(document, start, |node| numbers(node.children().rev())),
        9 => document.descendants().rev().fold(start, |sum, node| sum + weight(node)),
        10 => on_nodes(document, start, |node| numbers(node.ancestors())),
        11 => on_nodes(document, start, |node| numbers(node.next_siblings().take(SIBLINGS))),
        12 => on_nodes(document, start, |node| numbers(node.prev_siblings().take(SIBLINGS))),
        13 => on_nodes(document, start, |node| node.first_child().map_or(1, number)),
        14 => on_nodes(document, start, |node| node.last_child().map_or(1, number)),
        15 => on_nodes(document, start, |node| node.prev_sibling().map_or(1, number)),
        16 => on_nodes(document, start, |node| node.next_sibling_element().map_or(1, number)),
        _ => on_nodes(document, start, |node| node.parent_element().map_or(1, number)),
    }
}

#[inline(never)]
fn call_for_contents(work: u32, document: &Document, start: u64) -> u64 {
    match work {
        18 => on_nodes(document, start, |node| 1 + node.attributes().rev().map(|it| it.value().len() as u64).sum::<u64>()),
        19 => on_nodes(document, start, |node| length(node.text())),
        20 => on_nodes(document, start, |node| length(node.tail())),
        21 => on_nodes(document, start, |node| node.tag_name().name().len() as u64),
        22 => on_nodes(document, start, |node| node.range().end as u64),
        23 => on_nodes(document, start, |node| 1 + node.has_tag_name("p") as u64),
        24 => on_nodes(document, start, |node| 1 + (node.is_element() && node.tag_name().name() == "item") as u64),
        25 => ask_for_positions(document, start),
        26 => on_nodes(document, start, |node| length(node.attribute("zz"))),
        27 => on_nodes(document, start, |node| length(node.lookup_namespace_uri(None))),
        28 => on_nodes(document, start, |node| 1 + node.namespaces().map(|it| it.uri().len() as u64).sum::<u64>()),
        29 => on_nodes(document, start, |node| node.attributes().next_back().map_or(1, |it| value_by_name(node, it))),
        30 => ask_for_ids(document, start),
        _ => on_nodes(document, start, |node| 1 + node.attributes().map(|it| it.range().start as u64).sum::<u64>()),
    }
}

fn ask_for_positions(document: &Document, start: u64) -> u64 {
    let text = document.input_text();
    (0..8).fold(start, |sum, turn| {
        let place = text.len() / 8 * turn;
        let position = document.text_pos_at(text.floor_char_boundary(place));
        sum + position.row as u64 + position.col as u64
    })
}

fn ask_for_ids(document: &Document, start: u64) -> u64 {
    let nodes = (0..u32::MAX).map_while(|id| document.get_node(id.into()));
    nodes.fold(start, |sum, node| sum + node.is_element() as u64)
}
