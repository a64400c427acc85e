//! `from_logical` and `schedule`.

use kurbo::Rect;

use super::commands::has_area;
use super::mistake::Mistake;
use crate::header::Header;
use crate::plan::Region;

/// The regions of changed rectangles, band by band.
#[must_use]
pub fn schedule(header: &Header, dirty: &[Rect], mistake: Option<Mistake>) -> Vec<Region> {
    if mistake == Some(Mistake::WholeScreenEveryTime) {
        let (width, height) = (f64::from(header.width), f64::from(header.height));
        return schedule(header, &[Rect::new(0.0, 0.0, width, height)], None);
    }
    let regions: Vec<Region> = dirty
        .iter()
        .filter(|rect| mistake != Some(Mistake::BoxesWithoutAreaDropped) || has_area(**rect))
        .filter_map(|rect| from_logical(*rect, header, mistake))
        .collect();
    let bands = match mistake {
        Some(Mistake::RowsRoundedDown) => header.height / header.band_height,
        _ => header.rows(),
    };
    (0..bands)
        .flat_map(|band| {
            let top = band * header.band_height;
            let bottom = match mistake {
                Some(Mistake::BandsNotCut) => header.height,
                Some(Mistake::BandsOneLineShort) => top + (header.band_height - 1).max(1),
                _ => top + header.band_height,
            };
            let bottom = bottom.min(header.height);
            let cuts = regions
                .iter()
                .filter_map(|region| within(*region, top, bottom))
                .collect();
            joined(cuts, mistake)
        })
        .collect()
}

/// Low edges rounded down, high edges up, cut to the screen; no test of area.
#[must_use]
pub fn from_logical(rect: Rect, header: &Header, mistake: Option<Mistake>) -> Option<Region> {
    let low = |edge: f64| match mistake {
        Some(Mistake::LowEdgesRoundedUp) => edge.ceil().max(0.0),
        _ => edge.floor().max(0.0),
    };
    let high = |edge: f64, end: u32| match mistake {
        Some(Mistake::HighEdgesRoundedDown) => edge.floor().min(f64::from(end)),
        _ => edge.ceil().min(f64::from(end)),
    };
    let (x0, x1) = (low(rect.x0), high(rect.x1, header.width));
    let (y0, y1) = (low(rect.y0), high(rect.y1, header.height));
    (x0 < x1 && y0 < y1).then_some(Region {
        x: x0 as u32,
        y: y0 as u32,
        width: (x1 - x0) as u32,
        height: (y1 - y0) as u32,
    })
}

/// The part of a region in the lines from `top` to before `bottom`.
fn within(region: Region, top: u32, bottom: u32) -> Option<Region> {
    let low = region.y.max(top);
    let high = (region.y + region.height).min(bottom);
    (low < high).then(|| Region {
        y: low,
        height: high - low,
        ..region
    })
}

/// The sweep along x, then the order of output.
fn joined(mut cuts: Vec<Region>, mistake: Option<Mistake>) -> Vec<Region> {
    cuts.sort_by_key(|region| (region.x, region.y));
    let mut open: Vec<Region> = Vec::new();
    for next in cuts {
        match open.last_mut() {
            Some(last) if meets(last, &next, mistake) => *last = union(*last, next, mistake),
            _ => open.push(next),
        }
    }
    open.sort_by_key(|region| (region.y, region.x));
    open
}

fn meets(open: &Region, next: &Region, mistake: Option<Mistake>) -> bool {
    let right = open.x + open.width;
    let vertically = next.y <= open.y + open.height && open.y <= next.y + next.height;
    match mistake {
        Some(Mistake::JoinedOnlyOnOverlap) => next.x < right,
        Some(Mistake::JoinedOnlyWhereTheyMeetVertically) => next.x <= right && vertically,
        Some(Mistake::NeverJoined) => false,
        _ => next.x <= right,
    }
}

fn union(a: Region, b: Region, mistake: Option<Mistake>) -> Region {
    let x = a.x.min(b.x);
    let y = a.y.min(b.y);
    let bottom = match mistake {
        Some(Mistake::JoinKeepsTheHeight) => y + a.height,
        _ => (a.y + a.height).max(b.y + b.height),
    };
    Region {
        x,
        y,
        width: (a.x + a.width).max(b.x + b.width) - x,
        height: bottom - y,
    }
}
