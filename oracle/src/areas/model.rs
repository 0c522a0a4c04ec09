//! Request P10, as it reads: each rectangle by itself, word after word, and a mark for each word that one of them holds.

/// Refusals of the table.
pub const BAD_SIZE: u32 = 8;
pub const SHORT_FRAME: u32 = 9;
pub const BAD_AREA: u32 = 19;

#[derive(PartialEq)]
pub struct Area {
    pub left: usize,
    pub top: usize,
    pub width: usize,
    pub height: usize,
}

impl Area {
    pub fn is_empty(&self) -> bool {
        self.width == 0 || self.height == 0
    }
}

/// The rectangles of a list, four numbers each; what is left over at its end is none.
pub fn areas(list: &[u16]) -> Vec<Area> {
    let area = |four: &[u16]| {
        let [left, top, width, height] = [four[0], four[1], four[2], four[3]].map(usize::from);
        Area {
            left,
            top,
            width,
            height,
        }
    };
    list.chunks_exact(4).map(area).collect()
}

/// Why the call is refused, if it is.
pub fn refusal(
    words: usize,
    width: usize,
    height: usize,
    list: &[u16],
    room: usize,
) -> Option<u32> {
    if width == 0 || height == 0 || width > 1024 || height > 1024 {
        return Some(BAD_SIZE);
    }
    if words < width * height {
        return Some(SHORT_FRAME);
    }
    let areas = areas(list);
    let outside = |area: &Area| area.left + area.width > width || area.top + area.height > height;
    let bad = areas.len() > 64
        || list.len() % 4 != 0
        || areas.iter().any(outside)
        || room < 3 * areas.len();
    bad.then_some(BAD_AREA)
}

/// Which words of a picture of that size a rectangle holds.
pub fn held(width: usize, height: usize, areas: &[Area]) -> Vec<bool> {
    let mut held = vec![false; width * height];
    for area in areas {
        for y in area.top..area.top + area.height {
            for x in area.left..area.left + area.width {
                held[y * width + x] = true;
            }
        }
    }
    held
}

/// What the call answers. The totals go to the front of `result`.
pub fn answer(
    picture: &[u32],
    width: usize,
    height: usize,
    list: &[u16],
    result: &mut [u64],
) -> Result<u32, u32> {
    if let Some(number) = refusal(picture.len(), width, height, list, result.len()) {
        return Err(number);
    }
    let areas = areas(list);
    for (place, area) in areas.iter().enumerate() {
        let mut totals = [0; 3];
        for y in area.top..area.top + area.height {
            for x in area.left..area.left + area.width {
                let [_, red, green, blue] = picture[y * width + x].to_be_bytes();
                for (total, channel) in totals.iter_mut().zip([red, green, blue]) {
                    *total += u64::from(channel);
                }
            }
        }
        result[3 * place..3 * place + 3].copy_from_slice(&totals);
    }
    let held = held(width, height, &areas);
    Ok(held.iter().filter(|&&held| held).count() as u32)
}
