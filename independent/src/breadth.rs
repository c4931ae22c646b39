//! Points met breadth first, lower events first: so runs are met with the shorter ones first,
//! and those of one length with the lowest events first. Of the runs that come to one point only
//! the first must be followed, as the others go on alike.

/// A point that was met, the place of the one met before it, and the event between.
struct Met {
    point: usize,
    before: usize,
    event: usize,
}

/// The first run from a point to one that is an end; none if no run leads to an end. The points
/// are those below a number; from each an event leads onward, if it is to be followed.
pub fn first_run(
    points: usize,
    events: usize,
    start: usize,
    onward: impl Fn(usize, usize) -> Option<usize>,
    is_end: impl Fn(usize) -> bool,
) -> Option<Vec<u8>> {
    let mut seen = vec![false; points];
    seen[start] = true;
    let mut list = vec![Met { point: start, before: 0, event: 0 }];
    let mut at = 0;
    while at < list.len() {
        let point = list[at].point;
        if is_end(point) {
            return Some(way_to(&list, at));
        }
        for event in 0..events {
            if let Some(next) = onward(point, event) {
                if !std::mem::replace(&mut seen[next], true) {
                    list.push(Met { point: next, before: at, event });
                }
            }
        }
        at += 1;
    }
    None
}

/// The events from the first point to the one at this place.
fn way_to(list: &[Met], mut at: usize) -> Vec<u8> {
    let mut run = Vec::new();
    while at > 0 {
        run.push(list[at].event as u8);
        at = list[at].before;
    }
    run.reverse();
    run
}
