//! Examples of request 3 of document 02 as tests of this implementation.

use crate::answers::position_probe;
use crate::builder::image_of;
use crate::common::{Refusal, KEY_LABELS};
use crate::image::{CodeMap, Image, Lists, Node, TOP_BIT};
use crate::keylist::to_bytes;
use crate::position::{Move, Opened, Position, TYPED_LABELS};
use crate::rules::Rules;

const DOCUMENT: Rules = Rules::DOCUMENT;
const VALUE: u64 = 1 << 32;
const LONGER: u64 = 1 << 33;
const N: u32 = 0x6E;
const A: u32 = 0x61;
const X: u32 = 0x78;

/// A terminal with its image and its typing position.
struct Terminal {
    image: Opened,
    position: Position,
}

impl Terminal {
    fn new(image: Image) -> Terminal {
        Terminal { image: Ok(image), position: Position::fresh() }
    }

    fn answers(&self) -> u64 {
        position_probe(DOCUMENT, &self.image, &self.position)
    }

    fn types(&mut self, label: u32) -> u64 {
        self.position.make(DOCUMENT, &self.image, Move::Push(label));
        self.answers()
    }

    fn takes_back(&mut self) -> u64 {
        self.position.make(DOCUMENT, &self.image, Move::Back);
        self.answers()
    }
}

fn image(keys: &[&[u32]]) -> Image {
    let keys: Vec<Vec<u32>> = keys.iter().map(|key| key.to_vec()).collect();
    image_of(DOCUMENT, &to_bytes(&keys), 1_000).expect("the list builds")
}

fn p3() -> Image {
    image(&[&[N], &[N, A]])
}

/// Slot 1 is its own parent and reaches itself by A; it has value 7, and longer keys.
fn ring() -> Image {
    let nodes = [(TOP_BIT | 7, 1), (0, TOP_BIT | 1), (0, 0), (0, 0)];
    Image {
        nodes: nodes.map(|(base, check)| Node { base, check }).to_vec(),
        lists: Lists { offsets: vec![0, 0, 2, 2, 2], children: vec![1, 1] },
        map: CodeMap::new(DOCUMENT, vec![A]),
    }
}

#[test]
fn n_a_x_and_back() {
    let mut terminal = Terminal::new(p3());
    assert_eq!(terminal.answers(), LONGER);
    assert_eq!(terminal.types(N), VALUE + LONGER);
    assert_eq!(terminal.types(A), VALUE + 1);
    assert_eq!(terminal.types(X), 0);
    assert_eq!(terminal.takes_back(), VALUE + 1);
    assert_eq!(terminal.takes_back(), VALUE + LONGER);
    assert_eq!(terminal.takes_back(), LONGER);
    assert_eq!(terminal.takes_back(), LONGER);
    assert_eq!(terminal.position, Position::fresh());
}

#[test]
fn labels_after_a_failed_one_only_count() {
    let mut terminal = Terminal::new(p3());
    terminal.types(N);
    assert_eq!([X, A, A].map(|label| terminal.types(label)), [0; 3]);
    assert_eq!([(); 3].map(|()| terminal.takes_back()), [0, 0, VALUE + LONGER]);
    assert_eq!(terminal.types(A), VALUE + 1);
}

#[test]
fn the_limit_of_a_key() {
    let mut terminal = Terminal::new(ring());
    let answer = VALUE + LONGER + 7;
    assert_eq!([A; KEY_LABELS].map(|label| terminal.types(label)), [answer; KEY_LABELS]);
    assert_eq!([A; 2].map(|label| terminal.types(label)), [0; 2]);
    assert_eq!([(); 2].map(|()| terminal.takes_back()), [0, answer]);
    assert_eq!([(); KEY_LABELS].map(|()| terminal.takes_back()), [answer; KEY_LABELS]);
    assert_eq!(terminal.position, Position::fresh());
}

#[test]
fn labels_count_up_to_255() {
    let mut terminal = Terminal::new(p3());
    terminal.types(N);
    assert_eq!([X; TYPED_LABELS + 10].map(|label| terminal.types(label)), [0; TYPED_LABELS + 10]);
    assert_eq!(terminal.position.labels().len(), TYPED_LABELS);
    let failed = TYPED_LABELS - 1;
    assert_eq!((1..failed).map(|_| terminal.takes_back()).max(), Some(0));
    assert_eq!(terminal.takes_back(), VALUE + LONGER);
}

#[test]
fn a_ring_is_taken_back_label_by_label() {
    let mut terminal = Terminal::new(ring());
    let answer = VALUE + LONGER + 7;
    assert_eq!([A, A, X].map(|label| terminal.types(label)), [answer, answer, 0]);
    assert_eq!([(); 2].map(|()| terminal.takes_back()), [answer; 2]);
    assert_eq!((terminal.position.labels(), terminal.position.place()), (&[A][..], 1));
}

#[test]
fn refusals() {
    let mut terminal = Terminal::new(p3());
    terminal.types(N);
    let image = std::mem::replace(&mut terminal.image, Err(Refusal(6)));
    assert_eq!([terminal.types(A), terminal.takes_back()], [6 << 40; 2]);
    terminal.image = image;
    assert_eq!(terminal.answers(), VALUE + LONGER);
}

#[test]
fn a_place_that_is_not_below_n() {
    let mut terminal = Terminal::new(p3());
    terminal.types(N);
    assert_eq!(terminal.position.place(), 3);
    let (smaller, image) = (image(&[&[]]), terminal.image);
    terminal.image = Ok(smaller);
    assert_eq!([terminal.answers(), terminal.types(N), terminal.takes_back()], [0; 3]);
    terminal.image = image;
    assert_eq!(terminal.answers(), VALUE + LONGER);
    assert_eq!(terminal.types(A), VALUE + 1);
}
