//! queries FILE: writes what a template set answers to each query, as `tools/calls/faces/queries.c` does.
use std::error::Error;
use talvrugon::{Decoder, InHand, Limits, Set};

const NAMES: [&str; 6] = ["All", "Nested.One", "Part", "", "al", "All.a"];
const PATHS: [&str; 17] =
    ["a", "e", "i", "", ".", "x", "x.s", "x.s.t", "x.y.z", "x.s.y", "x.s.y.z", "x.s.y.z.z", "x.", ".x", "x..s", "n", "x-y.z"];
const STREAM: [u8; 14] = [0xe0, 0x80, 0xc0, 0x81, 0x82, 0xc0, 0x81, 0x81, 0x80, 0x80, 0x80, 0xc0, 0x87, 0x80];

fn number(name: &str, it: Option<u32>) -> String {
    it.map_or(format!(" {name} -"), |it| format!(" {name} {it}"))
}

fn body(nodes: &[u32]) -> String {
    nodes.iter().fold(" body".into(), |line, it| format!("{line} {it}"))
}

fn template_line(set: &Set, at: u32) -> String {
    let Some(it) = set.template(at) else {
        return format!("template {at}: 0 id 9 9 reset 9 body");
    };
    let (has_id, id) = (u32::from(it.id.is_some()), it.id.unwrap_or(0));
    format!("template {at}: 1 id {has_id} {id} reset {}{}", u32::from(it.reset), body(&it.body))
}

fn node_line(set: &Set, at: u32) -> String {
    let place = number("parent", set.node_parent(at)) + &number("template", set.node_template(at));
    let Some(it) = set.node(at) else {
        return format!("node {at}: 0 type 9 optional 9 op 9 entry 9 mantissa 9 entry 9{place} body");
    };
    let uses = format!("op {}{}", it.uses.operator as u32, number("entry", it.uses.entry));
    let mantissa = format!("mantissa {}{}", it.mantissa.operator as u32, number("entry", it.mantissa.entry));
    format!("node {at}: 1 type {} optional {} {uses} {mantissa}{place}{}", it.kind as u32, u32::from(it.optional), body(&it.body))
}

fn due(set: &Set) -> Result<(), talvrugon::Error> {
    let mut decoder = Decoder::new(set, Limits::default())?;
    for at in 0..=STREAM.len() {
        let (what, node) = match decoder.in_hand() {
            InHand::Message => (0, 0),
            InHand::Map => (1, 0),
            InHand::Node(node) => (2, node),
        };
        println!("after {at}: {what} {node}");
        let _ = decoder.feed(STREAM.get(at..=at).unwrap_or(&[]), |_| ());
    }
    Ok(())
}

fn main() -> Result<(), Box<dyn Error>> {
    let set = Set::read(&std::fs::read_to_string(std::env::args().nth(1).ok_or("no file")?)?)?;
    let limits = Limits { max_elements: 10, max_total: 30, ..Limits::default() };
    let (templates, nodes) = (set.templates(), set.nodes());
    let cap = set.message_cap(limits);
    println!("{templates} templates {nodes} nodes {} entries {} deep {cap} events", set.entries(), set.depth());
    (0..=templates).for_each(|at| println!("{}", template_line(&set, at)));
    (0..=nodes).for_each(|at| println!("{}", node_line(&set, at)));
    let names: String = NAMES.iter().map(|name| number(name, set.find_template(name))).collect();
    let ids: String = [0, 7, 1].iter().map(|&id| number("id", set.find_template_id(id))).collect();
    println!("{names} ? -{ids}");
    for at in 0..4 {
        println!("in {at}:{}", PATHS.iter().map(|path| number(path, set.find_node(at, path))).collect::<String>());
    }
    due(&set)?;
    Ok(())
}
