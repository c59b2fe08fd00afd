//! Files of document 01 and requests E2, E7, E9 and E12: fields, refusals 1 to 25,
//! 29, 38 and 39, shape files, listings, older files put in order.
//! A refusal is its number.

use crate::damage::split_fields;
use crate::plate::{Plate, Shape};
use std::collections::BTreeMap;

/// Finds the best shape of an accepted plate within its limits, or none.
pub type Solver = fn(&Plate) -> Option<Shape>;

/// An accepted plate list.
#[derive(Debug)]
pub struct List {
    pub revision: Vec<u8>,
    pub plate: Plate,
}

/// A sound verdict: the fewest bends or, for a list with prices, the least sum of
/// bends times price.
#[derive(Debug, PartialEq, Eq)]
pub struct Verdict {
    pub total: u32,
    pub fewest: u32,
    pub ours: bool,
}

/// Whether a tag's length is as laid out; none for a tag not of the file.
type Layout = fn(u8, usize) -> Option<bool>;

fn list_layout(tag: u8, length: usize) -> Option<bool> {
    Some(match tag {
        0x01 => length == 2,
        0x02 | 0x05 => length == 1,
        0x03 => length & 1 == 0 && length <= 256,
        0x04 => length <= 256,
        0x06 => length <= 80,
        0x07 | 0x08 => length <= 128,
        _ => return None,
    })
}

fn shape_layout(tag: u8, length: usize) -> Option<bool> {
    Some(match tag {
        0x11 | 0x12 => length == 2,
        0x13 | 0x14 => length <= 256,
        0x15 => length <= 80,
        0x16 => length == 4,
        _ => return None,
    })
}

/// Older lists have no prices.
fn older_list_layout(tag: u8, length: usize) -> Option<bool> {
    list_layout(tag, length).filter(|_| tag != 0x08)
}

/// Older shape files have no sum.
fn older_shape_layout(tag: u8, length: usize) -> Option<bool> {
    shape_layout(tag, length).filter(|_| tag != 0x16)
}

/// Whether the tags of a file must ascend.
#[derive(Clone, Copy, PartialEq, Eq)]
enum Order {
    Rising,
    Any,
}

/// The field walk, 1 to 5 and 29.
fn walk(file: &[u8], layout: Layout, order: Order) -> Result<BTreeMap<u8, Vec<u8>>, u8> {
    let mut fields = BTreeMap::new();
    let mut previous = None;
    let mut at = 0;
    while at < file.len() {
        if file.len() - at < 3 {
            return Err(1);
        }
        let tag = file[at];
        let length = 256 * usize::from(file[at + 1]) + usize::from(file[at + 2]);
        let as_laid_out = layout(tag, length).ok_or(2)?;
        if fields.contains_key(&tag) {
            return Err(3);
        }
        if order == Order::Rising && previous.is_some_and(|before| tag < before) {
            return Err(29);
        }
        previous = Some(tag);
        if !as_laid_out {
            return Err(4);
        }
        let content = file.get(at + 3..at + 3 + length).ok_or(5)?;
        fields.insert(tag, content.to_vec());
        at += 3 + length;
    }
    Ok(fields)
}

/// The walk and 6.
fn read_fields(
    file: &[u8],
    layout: Layout,
    needed: std::ops::RangeInclusive<u8>,
    order: Order,
) -> Result<BTreeMap<u8, Vec<u8>>, u8> {
    let fields = walk(file, layout, order)?;
    if needed.into_iter().all(|tag| fields.contains_key(&tag)) {
        Ok(fields)
    } else {
        Err(6)
    }
}

fn refuse_if(condition: bool, number: u8) -> Result<(), u8> {
    if condition {
        Err(number)
    } else {
        Ok(())
    }
}

/// An older file, in any order, with its fields in tag order: 1 to 6.
pub fn in_order(file: &[u8]) -> Result<Vec<u8>, u8> {
    let fields = match file.first() {
        Some(0x10..) => read_fields(file, older_shape_layout, 0x11..=0x14, Order::Any)?,
        _ => read_fields(file, older_list_layout, 0x01..=0x05, Order::Any)?,
    };
    let mut ordered = Vec::new();
    for (tag, content) in &fields {
        push_field(&mut ordered, *tag, content);
    }
    Ok(ordered)
}

/// Reads a plate list: 1 to 15, 23, 29 and 38.
pub fn read_list(file: &[u8]) -> Result<List, u8> {
    let mut fields = read_fields(file, list_layout, 0x01..=0x05, Order::Rising)?;
    let posts = usize::from(fields[&0x02][0]);
    refuse_if(posts == 0 || posts > 64, 7)?;
    let mut plate = Plate {
        posts,
        strips: pairs(&fields[&0x03]),
        order: Vec::new(),
        outer: usize::from(fields[&0x05][0]),
        limits: Vec::new(),
        prices: Vec::new(),
    };
    check_strips(&plate)?;
    plate.order = clockwise(&plate, &fields[&0x04]).ok_or(12)?;
    refuse_if(plate.outer >= plate.darts(), 13)?;
    refuse_if(!plate.connected(), 14)?;
    refuse_if(!plate.plane(), 15)?;
    if let Some(limits) = fields.remove(&0x07) {
        refuse_if(limits.len() != plate.strips.len(), 23)?;
        plate.limits = limits;
    }
    if let Some(prices) = fields.remove(&0x08) {
        refuse_if(prices.len() != plate.strips.len(), 38)?;
        refuse_if(prices.iter().any(|price| !(1..=100).contains(price)), 38)?;
        plate.prices = prices;
    }
    Ok(List {
        revision: fields[&0x01].clone(),
        plate,
    })
}

fn pairs(content: &[u8]) -> Vec<[usize; 2]> {
    let pairs = content.chunks(2);
    pairs
        .map(|pair| [usize::from(pair[0]), usize::from(pair[1])])
        .collect()
}

/// 8, 9 and 11.
fn check_strips(plate: &Plate) -> Result<(), u8> {
    let strips = &plate.strips;
    refuse_if(strips.is_empty(), 8)?;
    refuse_if(strips.iter().flatten().any(|&end| end >= plate.posts), 9)?;
    refuse_if((0..plate.posts).any(|post| plate.degree(post) > 4), 11)
}

/// The clockwise darts of each post, or none for 12.
fn clockwise(plate: &Plate, content: &[u8]) -> Option<Vec<Vec<usize>>> {
    if content.len() != plate.darts() {
        return None;
    }
    let mut rest = content.iter().map(|&d| usize::from(d));
    let mut order = Vec::new();
    for post in 0..plate.posts {
        let leaving = (0..plate.darts()).filter(|&d| plate.tail(d) == post);
        let leaving: Vec<usize> = leaving.collect();
        let part: Vec<usize> = rest.by_ref().take(leaving.len()).collect();
        let mut sorted = part.clone();
        sorted.sort();
        if sorted != leaving {
            return None;
        }
        order.push(part);
    }
    Some(order)
}

fn push_field(file: &mut Vec<u8>, tag: u8, content: &[u8]) {
    file.push(tag);
    file.extend((content.len() as u16).to_be_bytes());
    file.extend(content);
}

fn bytes(counts: &[u32]) -> Vec<u8> {
    let fits = |&count| u8::try_from(count).expect("a count fits a byte");
    counts.iter().map(fits).collect()
}

/// The fields of a plate list, in tag order.
pub fn list_fields(plate: &Plate, revision: u16, remark: Option<&[u8]>) -> Vec<Vec<u8>> {
    let ends: Vec<u8> = plate.strips.iter().flatten().map(|&p| p as u8).collect();
    let order: Vec<u8> = plate.order.iter().flatten().map(|&d| d as u8).collect();
    let some = |content| Some(content).filter(|content: &&[u8]| !content.is_empty());
    let contents: [Option<&[u8]>; 8] = [
        Some(&revision.to_be_bytes()),
        Some(&[plate.posts as u8]),
        Some(&ends),
        Some(&order),
        Some(&[plate.outer as u8]),
        remark,
        some(&plate.limits[..]),
        some(&plate.prices[..]),
    ];
    let mut fields = Vec::new();
    for (tag, content) in (1..).zip(contents) {
        let mut field = Vec::new();
        if let Some(content) = content {
            push_field(&mut field, tag, content);
            fields.push(field);
        }
    }
    fields
}

/// A list with a field 07 of this content behind its other fields.
pub fn with_limits(list: &[u8], content: &[u8]) -> Vec<u8> {
    let mut list = list.to_vec();
    push_field(&mut list, 0x07, content);
    list
}

/// A list with a field 08 of this content behind its other fields.
pub fn with_prices(list: &[u8], content: &[u8]) -> Vec<u8> {
    let mut list = list.to_vec();
    push_field(&mut list, 0x08, content);
    list
}

/// A plate list with its fields in tag order.
pub fn list_bytes(plate: &Plate, revision: u16, remark: Option<&[u8]>) -> Vec<u8> {
    list_fields(plate, revision, remark).concat()
}

/// The sum that a shape file tells, if the list has prices.
fn sum_of(plate: &Plate, shape: &Shape) -> Option<[u8; 4]> {
    let sum = plate.sum(&shape.rights).to_be_bytes();
    (!plate.prices.is_empty()).then_some(sum)
}

/// The file of a shape, with its fields in tag order.
pub fn shape_bytes(list: &List, shape: &Shape) -> Vec<u8> {
    let mut file = Vec::new();
    let total = shape.bends() as u16;
    push_field(&mut file, 0x11, &list.revision);
    push_field(&mut file, 0x12, &total.to_be_bytes());
    push_field(&mut file, 0x13, &bytes(&shape.angles));
    push_field(&mut file, 0x14, &bytes(&shape.rights));
    if let Some(sum) = sum_of(&list.plate, shape) {
        file = with_sum(&file, &sum);
    }
    file
}

/// A shape file with a field 15 of this content at its place in tag order.
pub fn with_remark(file: &[u8], content: &[u8]) -> Vec<u8> {
    let mut remark = Vec::new();
    push_field(&mut remark, 0x15, content);
    let (before, after): (Vec<_>, Vec<_>) = split_fields(file)
        .into_iter()
        .partition(|field| field[0] < 0x15);
    [before.concat(), remark, after.concat()].concat()
}

/// A shape file with a field 16 of this content behind its other fields.
pub fn with_sum(file: &[u8], content: &[u8]) -> Vec<u8> {
    let mut file = file.to_vec();
    push_field(&mut file, 0x16, content);
    file
}

/// A shape file for a list as it was written before request E9: with the
/// remark of the list, if it has one.
pub fn older_file(list: &[u8], file: &[u8]) -> Vec<u8> {
    let fields = split_fields(list);
    let remark = fields.iter().find(|field| field[0] == 0x06);
    remark.map_or(file.to_vec(), |field| with_remark(file, &field[3..]))
}

/// The file of a shape, with the revision of an accepted list.
pub fn file_of(list: &[u8], shape: &Shape) -> Vec<u8> {
    shape_bytes(&read_list(list).expect("the list is accepted"), shape)
}

/// The shape file to be written for a plate list, with its total bends: 1 to
/// 15, 23, 29 and 38, then 24.
pub fn shape_of(file: &[u8], best: Solver) -> Result<(Vec<u8>, u32), u8> {
    let list = read_list(file)?;
    let shape = best(&list.plate).ok_or(24)?;
    Ok((shape_bytes(&list, &shape), shape.bends()))
}

/// The list and the shape of a sound shape file: 1 to 15, 23, 29 and 38 for the
/// list, then 1 to 6, 29, 17 to 22, 25 and 39.
pub fn read_shape(file: &[u8], shape_file: &[u8]) -> Result<(List, Shape), u8> {
    let list = read_list(file)?;
    let plate = &list.plate;
    let fields = read_fields(shape_file, shape_layout, 0x11..=0x14, Order::Rising)?;
    let shape = Shape {
        angles: fields[&0x13].iter().map(|&a| u32::from(a)).collect(),
        rights: fields[&0x14].iter().map(|&r| u32::from(r)).collect(),
    };
    let lengths = [shape.angles.len(), shape.rights.len()];
    refuse_if(lengths != [plate.darts(); 2], 17)?;
    refuse_if(fields[&0x11] != list.revision, 18)?;
    refuse_if(shape.angles.iter().any(|a| !(1..=4).contains(a)), 19)?;
    refuse_if(!plate.angles_close(&shape.angles), 20)?;
    refuse_if(!plate.turns_close(&plate.faces(), &shape), 21)?;
    let total = u32::from(u16::from_be_bytes([fields[&0x12][0], fields[&0x12][1]]));
    refuse_if(total != shape.bends(), 22)?;
    refuse_if(!plate.keeps_limits(&shape.rights), 25)?;
    let sum = sum_of(plate, &shape).map(Vec::from);
    refuse_if(fields.get(&0x16) != sum.as_ref(), 39)?;
    Ok((list, shape))
}

/// The verdict on a shape file, with the numbers of `read_shape`.
pub fn verdict_of(file: &[u8], shape_file: &[u8], best: Solver) -> Result<Verdict, u8> {
    let (list, shape) = read_shape(file, shape_file)?;
    let ours = best(&list.plate).expect("the shape of the file keeps the limits");
    Ok(Verdict {
        total: shape.bends(),
        fewest: list.plate.sum(&ours.rights),
        ours: shape == ours,
    })
}

/// The text that the listing program prints for a plate list.
pub fn listing_of(file: &[u8], best: Solver) -> String {
    let text = read_list(file).and_then(|list| {
        let shape = best(&list.plate).ok_or(24)?;
        Ok(listing_text(&list, &shape))
    });
    text.unwrap_or_else(|number| format!("refused {number}\n"))
}

fn listing_text(list: &List, shape: &Shape) -> String {
    let revision = 256 * u32::from(list.revision[0]) + u32::from(list.revision[1]);
    let mut text = format!("revision {revision}\nbends {}\n", shape.bends());
    for (dart, (right, angle)) in shape.rights.iter().zip(&shape.angles).enumerate() {
        text += &format!("dart {dart} right {right} angle {angle}\n");
    }
    text
}
