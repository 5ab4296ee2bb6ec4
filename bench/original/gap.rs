// A gap buffer in plain Rust, and the cases over it: the module that takes this file in says what `Vec` is, and how an empty one is made.

/// A text in two parts, with its free places at the cursor. An edit there moves nothing.
pub struct GapBuffer {
    places: Vec<u16>,
    start: usize,
    end: usize,
}

impl Default for GapBuffer {
    fn default() -> Self {
        GapBuffer { places: empty(), start: 0, end: 0 }
    }
}

impl GapBuffer {
    // The numbers below `count`, the cursor in the middle.
    fn fill(&mut self, count: u32) {
        for i in 0..count {
            self.insert(i as u16);
        }
        self.move_to(self.len() / 2);
    }

    fn checksum(&self, sum: u64) -> u64 {
        checksum_from(checksum_from(sum, &self.places[..self.start]), &self.places[self.end..])
    }

    fn len(&self) -> usize {
        self.start + self.places.len() - self.end
    }

    #[inline]
    fn insert(&mut self, number: u16) {
        if self.start == self.end {
            self.grow();
        }
        self.places[self.start] = number;
        self.start += 1;
    }

    // The part before the cursor is kept at the beginning, and the other moves to the end.
    #[cold]
    fn grow(&mut self) {
        let (old, new) = (self.places.len(), (2 * self.places.len()).max(8));
        self.places.resize(new, 0);
        self.places.copy_within(self.end..old, self.end + new - old);
        self.end += new - old;
    }

    fn move_to(&mut self, place: usize) {
        if place < self.start {
            let moved = self.start - place;
            self.places.copy_within(place..self.start, self.end - moved);
            (self.start, self.end) = (place, self.end - moved);
        } else {
            let moved = place.min(self.len()) - self.start;
            self.places.copy_within(self.end..self.end + moved, self.start);
            (self.start, self.end) = (self.start + moved, self.end + moved);
        }
    }
}

#[inline(never)]
fn gap_insert(text: &mut GapBuffer) {
    for i in 0..1000 {
        text.insert(i);
    }
}

// The cursor jumps before each hundredth number, in no regular order.
#[inline(never)]
fn gap_typing(text: &mut GapBuffer, count: u32) {
    let mut state: u32 = 1;
    for _ in 0..count / 100 {
        state = state.wrapping_mul(1_664_525).wrapping_add(1_013_904_223);
        text.move_to((state >> 8) as usize % text.len().max(1));
        for k in 0..100 {
            text.insert(k);
        }
    }
}
