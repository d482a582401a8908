//! A differing case made smaller as long as it still differs.

use crate::case::{Case, Config, Step};
use crate::compare::{compared, Counts};
use crate::wrong::Reading;
use std::rc::Rc;

/// No more tries than this, so that a large case does not hold the run up.
const TRIES: u32 = 6000;

struct Shrinking {
    best: Case,
    reading: Reading,
    tries: u32,
}

impl Shrinking {
    /// Takes a case over if it is smaller and still differs.
    fn takes(&mut self, case: Case) -> bool {
        if self.tries == 0 || case.size() >= self.best.size() || !case.inside_stores() {
            return false;
        }
        self.tries -= 1;
        let differs = compared(&case, self.reading, &mut Counts::default()).is_some();
        if differs {
            self.best = case;
        }
        differs
    }

    fn without_steps(&mut self) -> bool {
        let mut smaller = false;
        let mut length = self.best.steps.len().div_ceil(2);
        while length > 0 {
            let mut start = 0;
            while start < self.best.steps.len() {
                let end = (start + length).min(self.best.steps.len());
                let mut case = self.best.clone();
                case.steps.drain(start..end);
                if self.takes(case) {
                    smaller = true;
                } else {
                    start = end;
                }
            }
            length /= 2;
        }
        smaller
    }

    fn with_smaller_images(&mut self) -> bool {
        let mut smaller = false;
        for place in 0..self.best.steps.len() {
            for half in [true, false] {
                for wide in [true, false] {
                    while self.image_smaller(place, half, wide) {
                        smaller = true;
                    }
                }
            }
        }
        smaller
    }

    fn image_smaller(&mut self, place: usize, half: bool, wide: bool) -> bool {
        let mut case = self.best.clone();
        let Some(Step::Offer(image)) = case.steps.get_mut(place) else { return false };
        let side = if wide { &mut image.w } else { &mut image.h };
        let less = if half { *side / 2 } else { *side - 1 };
        *side = less;
        less > 0 && self.takes(case)
    }

    /// An image and the canvas smaller together, where neither alone still differs.
    fn with_less_of_both(&mut self) -> bool {
        let mut smaller = false;
        for place in 0..self.best.steps.len() {
            for (image_w, image_h, w, h) in [(1, 0, 1, 0), (0, 1, 0, 1), (1, 0, 0, 1), (0, 1, 1, 0), (1, 1, 1, 1)] {
                loop {
                    let mut case = self.best.clone();
                    let Some(Step::Offer(image)) = case.steps.get_mut(place) else { break };
                    if image.w <= image_w || image.h <= image_h || case.config.width <= w || case.config.height <= h {
                        break;
                    }
                    image.w -= image_w;
                    image.h -= image_h;
                    case.config.width -= w;
                    case.config.height -= h;
                    if !self.takes(case) {
                        break;
                    }
                    smaller = true;
                }
            }
        }
        smaller
    }

    fn with_simpler_config(&mut self) -> bool {
        let changes: [fn(&mut Config); 19] = [
            |c| c.rotation = false,
            |c| c.trim = false,
            |c| c.outlines = false,
            |c| c.forced = false,
            |c| c.padding = 0,
            |c| c.border = 0,
            |c| c.extrusion = 0,
            |c| c.padding = c.padding.saturating_sub(1),
            |c| c.border = c.border.saturating_sub(1),
            |c| c.extrusion = c.extrusion.saturating_sub(1),
            |c| c.width = c.width.div_ceil(2),
            |c| c.height = c.height.div_ceil(2),
            |c| c.width = (c.width - 1).max(1),
            |c| c.height = (c.height - 1).max(1),
            |c| c.pages = 1,
            |c| c.pages = (c.pages - 1).max(1),
            |c| c.images = c.images.div_ceil(2),
            |c| c.images = (c.images - 1).max(1),
            |c| (c.width, c.height) = ((c.width - 1).max(1), (c.height - 1).max(1)),
        ];
        let mut smaller = false;
        for change in changes {
            loop {
                let mut case = self.best.clone();
                change(&mut case.config);
                if !self.takes(case) {
                    break;
                }
                smaller = true;
            }
        }
        smaller
    }
}

/// The smallest case that was found to differ still.
pub fn smallest(case: &Case, reading: Reading) -> Case {
    let mut shrinking = Shrinking { best: case.clone(), reading, tries: TRIES };
    while shrinking.without_steps() | shrinking.with_simpler_config() | shrinking.with_smaller_images() | shrinking.with_less_of_both() {}
    tidied(shrinking.best, reading)
}

/// The stores without the bytes that no image has, and keys from 0, if the case still differs then.
fn tidied(case: Case, reading: Reading) -> Case {
    let (mut symbols, mut wording) = (Vec::new(), Vec::new());
    let mut tidy = case.clone();
    let mut key = 0;
    for step in &mut tidy.steps {
        if let Step::Offer(image) = step {
            let from = case.store(image);
            let to = if image.wording { &mut wording } else { &mut symbols };
            let start = image.offset as usize;
            image.offset = to.len() as u32;
            image.key = key;
            key += 1;
            to.extend_from_slice(&from[start..start + (4 * image.w * image.h) as usize]);
        }
    }
    tidy.symbols = Rc::new(symbols);
    tidy.wording = Rc::new(wording);
    if compared(&tidy, reading, &mut Counts::default()).is_some() {
        tidy
    } else {
        case
    }
}
