//! Sequences of moves of a typing position, near given numbers of labels: labels
//! that are walked, labels that fail, and labels taken back.

use crate::call::Images;
use crate::queries::{any_label, steps_from};
use crosscheck::image::Image;
use crosscheck::position::{replay, Move, Opened, Position};
use crosscheck::random::Random;
use crosscheck::rules::Rules;

/// The indices of the images.
const IMAGE: usize = 0;
const REFUSED: usize = 1;
const SMALLER: usize = 2;

/// Moves from a fresh position to each of these numbers of labels in turn, with a few moves near
/// each, some of them over the other images.
pub fn any_moves(random: &mut Random, images: Images, borders: &[usize]) -> Vec<(usize, Move)> {
    let images = images.map(|image| Image::parse(Rules::DOCUMENT, image));
    let mut typist = Typist { random, images, position: Position::fresh(), made: Vec::new() };
    for border in borders {
        typist.go_to(*border);
        (0..12).for_each(|_| typist.wander());
    }
    typist.made
}

/// Whether the documents say what each move leads to: over another image than the first, the
/// position has to stay.
pub fn answers_are_said(images: Images, moves: &[(usize, Move)]) -> bool {
    let images = images.map(|image| Image::parse(Rules::DOCUMENT, image));
    let positions = replay(Rules::DOCUMENT, &images, moves);
    let mut before = moves.iter().zip(&positions);
    before.all(|((over, _), position)| *over == IMAGE || stays(position, &images[*over]))
}

/// Whether an image is refused or does not have the place of a position.
fn stays(position: &Position, image: &Opened) -> bool {
    image.as_ref().map_or(true, |image| image.nodes.len() <= position.place() as usize)
}

/// Moves made so far, and the position that they lead to.
struct Typist<'a> {
    random: &'a mut Random,
    images: [Opened; 3],
    position: Position,
    made: Vec<(usize, Move)>,
}

impl Typist<'_> {
    fn make(&mut self, over: usize, next: Move) {
        self.position.make(Rules::DOCUMENT, &self.images[over], next);
        self.made.push((over, next));
    }

    /// Labels that are walked, or labels taken back, until there are so many.
    fn go_to(&mut self, labels: usize) {
        while self.position.labels().len() < labels {
            let label = self.label(200);
            self.make(IMAGE, Move::Push(label));
        }
        while self.position.labels().len() > labels {
            self.make(IMAGE, Move::Back);
        }
    }

    /// One move, which now and then is refused or finds the place not below N.
    fn wander(&mut self) {
        let next = match self.random.below(2) {
            0 => Move::Push(self.label(3)),
            _ => Move::Back,
        };
        let over = match self.random.below(6) {
            0 => REFUSED,
            1 | 2 if stays(&self.position, &self.images[SMALLER]) => SMALLER,
            _ => IMAGE,
        };
        self.make(over, next);
    }

    /// A label with a step from the last good place, if there is one; in one of `any` cases, any label.
    fn label(&mut self, any: usize) -> u32 {
        let Ok(image) = &self.images[IMAGE] else {
            return self.random.word();
        };
        let steps = steps_from(self.random, image, self.position.place());
        if steps.is_empty() || self.random.one_in(any) {
            return any_label(self.random, image);
        }
        image.map.label(self.random.pick(&steps))
    }
}
