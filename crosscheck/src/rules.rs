//! The rules of document 01, with requests 1 (romaji typing), 2 (frequencies), 3
//! (typing positions), 5 (why a word is missing), 6 (one lookup) and 7 (goods
//! entries) of document 02, and wrong variants that break one rule each.
//!
//! A comparison that cannot tell a wrong variant from the documents is too weak.
//! Each variant is tested at the one place where its rule is written, with the
//! right rule first.

/// The documents, or the documents with one rule broken.
#[derive(Clone, Copy, Debug, PartialEq, Eq)]
pub struct Rules(Option<Wrong>);

impl Rules {
    /// The documents as they stand.
    pub const DOCUMENT: Rules = Rules(None);

    pub const fn breaking(wrong: Wrong) -> Rules {
        Rules(Some(wrong))
    }

    /// Whether `wrong` is the broken rule; never so under [`Rules::DOCUMENT`].
    pub fn breaks(self, wrong: Wrong) -> bool {
        self.0 == Some(wrong)
    }

    /// Whether `wrong` is not the broken rule; always so under [`Rules::DOCUMENT`].
    pub fn keeps(self, wrong: Wrong) -> bool {
        !self.breaks(wrong)
    }

    /// `right`, or `instead` if `wrong` is the broken rule.
    pub fn either<T>(self, right: T, wrong: Wrong, instead: T) -> T {
        if self.breaks(wrong) {
            instead
        } else {
            right
        }
    }
}

macro_rules! wrong_variants {
    ($($name:ident: $what:literal,)*) => {
        /// A small, plausible mistake.
        #[derive(Clone, Copy, Debug, PartialEq, Eq)]
        pub enum Wrong {
            $(#[doc = $what] $name,)*
        }

        impl Wrong {
            pub const ALL: &'static [Wrong] = &[$(Wrong::$name,)*];

            /// What this variant does wrong.
            pub fn what(self) -> &'static str {
                match self {
                    $(Wrong::$name => $what,)*
                }
            }
        }
    };
}

wrong_variants! {
    // Header, sizes and code map: 1 to 8.
    ReservedBeforeVersion: "refusal 4 is tested before 3",
    LastReservedIgnored: "the last four header bytes may be anything",
    SlotLimit65535: "N of 65,536 is refused",
    OneEdgeTooMany: "E may be N-1",
    SumIn32Bits: "the length is compared in 32 bits",
    CodeMapLittleEndian: "the code map is read little-endian",
    ListLimit4096: "a code map may list 4,096 labels",
    LastPlaceCounts: "a label listed twice has its last code",
    LastOffsetIgnored: "the last offset may differ from E",
    // The check: 9 to 12 and the count.
    SurrogateListed: "a listed surrogate passes",
    LabelListedTwice: "a label listed twice passes",
    Slot0Ignored: "slot 0 may hold anything",
    UnusedBaseIgnored: "an unused slot may have a base",
    LastCodeRefused: "the code L is refused",
    HasLeafMayBeClear: "an end without HAS_LEAF above it passes",
    ChildMayBeMissing: "E is not compared with the used slots",
    ChildListedTwice: "codes need not rise",
    FallingListAccepted: "a list in falling order passes",
    ChildlessSlotAccepted: "an inner slot without children passes",
    EmptyRootBaseIgnored: "slot 1 without children may have a base",
    OneStepTooFew: "as many steps to slot 1 as allowed are too many",
    OneStepTooMany: "one step to slot 1 more than allowed passes",
    CycleAccepted: "a cycle whose lists agree with its parents passes",
    UsedSlotsCounted: "the used slots are counted instead of the pairs",
    // The place of a fault.
    LastPlaceTold: "the last place at fault is told",
    EntryWithinItsList: "a wrong entry is told by its place in its list",
    UnlistedBeforeEntries: "a slot in no list is told before a wrong entry",
    // The highest value.
    LastPairIsHighest: "the highest value is that of the last pair",
    CountLessOneHighest: "the highest value is the number of pairs less one",
    NoPairHasValue0: "the highest value of no pairs is 0",
    BasesAreValues: "the bases of prefixes count as values",
    HighestPasses12: "an image that 12 refuses has a highest value",
    // The searches.
    QueryBeforeImage: "refusal 13 is tested before 1 to 8",
    WholeCheckCompared: "the whole check word is compared with the parent",
    LeafHasSteps: "a walk steps out of a leaf",
    UnlistedIsCode0: "an unlisted label has code 0",
    ValueWithoutHasLeaf: "a value is found without HAS_LEAF",
    EndNeedNotBeLeaf: "a value is read from a slot that is no leaf",
    EmptyKeyNoPrefix: "the empty key is no prefix",
    PrefixesStopOneEarly: "prefixes stop one label before the limit of a key",
    PrefixesPastTheLimit: "prefixes go past the limit of a key",
    PlacesBehindStay: "places past the count are not zeroed",
    PlacesClearedByRefusal: "refused prefixes clear the places",
    FewPlacesStay: "places too few for all lengths are left as they were",
    LongestIsTheWalk: "longest answers how far the walk went",
    LookupPastTheLimit: "lookup goes past the limit of a key",
    ExactWithoutValue: "a key is found with value 0 in place of its own",
    LastCasesExchanged: "the last two cases of lookup are exchanged",
    KeyIsOnlyPrefix: "a key with longer keys is only a prefix",
    EndCountsAsLonger: "longer keys exist wherever a list is not empty",
    FallingPairWraps: "a falling offset pair has a wrapped width",
    // Why a word is missing.
    LastLabelStops: "the walk is told to stop at the last label",
    UnlistedBeforeNoStep: "a label that is not listed is told before an earlier one without a step",
    LastUnlistedTold: "the last label that is not listed is told",
    UnlistedIsNoStep: "a label that is not listed is told as one without a step",
    NoStepIsUnlisted: "a label without a step is told as one that is not listed",
    NoKeyIsNoStep: "where no key ends, a missing step behind the last label is told",
    HasLeafIsFound: "a word is found where HAS_LEAF is set and no leaf is",
    TooLongAtTheLimit: "a query of as many labels as a key may have is too long",
    OneLabelMoreWalked: "a query of one label more than a key may have is walked",
    TooLongAfterWalking: "a query is too long only if all its labels can be walked",
    TooLongBeforeRefusals: "a query that is too long is told before any refusal",
    StopCountedFrom1: "the place of a label is counted from 1",
    StopCountedInBytes: "the place of a label is counted in bytes",
    FoundHasPlace: "found has the number of labels as its place",
    NoKeyHasPlace: "no key ends there has the number of labels as its place",
    TooLongHasPlace: "too long has the number of labels as its place",
    RefusedHasReason: "a refusal has a reason",
    ReasonTests13First: "the reason tests refusal 13 before 1 to 8",
    ReasonTests9To12: "the reason tests 9 to 12 too",
    // Completions.
    RoomBeforeImage: "refusal 14 is tested before 9 to 12",
    PrefixLabelsLeftOut: "records leave out the prefix's labels",
    EndAfterLongerKeys: "an end follows its longer keys",
    ChildrenBySlot: "children are listed by slot number",
    ChildrenByLabel: "children are listed by label",
    RecordWantsSpareByte: "a record that fills the room exactly finds none",
    StopNotTold: "a listing that stopped does not say so",
    GoesOnAfterStop: "a shorter record is written after one without room",
    RoomBehindCleared: "bytes past the last record are cleared",
    RoomClearedByRefusal: "a refused completion clears its room",
    // Romaji typing: refusals, the kana table, the state.
    TypingPasses9To12: "typing takes an image that 9 to 12 refuse",
    TableBefore9: "refusal 24 is tested before 9 to 12",
    EmptyKeyBeforeTable: "refusal 25 is tested before 24",
    EmptyKeyAfterRoom: "refusal 25 is tested after 29",
    TextForEachPair: "24 asks for as many texts as pairs, whatever their values",
    OnlyTypedTextsWhole: "24 looks only at the texts that go out",
    LastTextMayLack: "24 takes a table that ends before the last text",
    LastTextMayBeCut: "24 takes a text whose labels are cut short",
    TableEndsWithTexts: "24 is given for a table that goes on after the last text",
    TableLabelsChecked: "24 is given for a number in the table that is no scalar",
    TextLengthInBytes: "the length byte of a text counts bytes",
    RoomForKept: "29 asks for room for what is kept too",
    RoomInLabels: "29 compares the labels that go out with the bytes of room",
    RoomWantsSpareByte: "room of exactly what goes out is refused",
    RoomFilledBy29: "refusal 29 leaves what fits in the room",
    StateChangedBy29: "refusal 29 changes the state",
    TypingClearsRoom: "room past what goes out is cleared",
    OutgoingBytesCount: "the bytes that go out are counted, not the labels",
    LabelsOutReversed: "labels go out with their lowest byte first",
    KeptForgotten: "what was kept is not read",
    NothingTypedSkipped: "if nothing is typed, nothing is read",
    FinishLeavesState: "finishing leaves the state as it was",
    StateNotZeroed: "bytes behind the kept ones are not zeroed",
    HighCountKeepsNone: "a state that counts more bytes than can be kept keeps none",
    // Romaji typing: what waits, what goes out.
    NothingWaits: "typing keeps nothing back",
    KeyWaitsToo: "a rest that is a key waits, even if no key is longer",
    KeyNeverWaits: "a rest that is a key goes out, even if a key is longer",
    HighLabelsNeverGrow: "a rest does not wait for a key with a label above 255",
    LongestRestPasses: "a rest of one byte less than the limit of a key passes",
    FinishKeeps: "finishing keeps a rest back",
    PassedByteKept: "a byte that passes at the end is kept too",
    ShortestKeyWins: "the shortest key at a place wins",
    KeyAtEndOfWalk: "no key is found if the text goes on like a longer one",
    LongestKeyMissed: "a key at the limit is not found",
    Value0Passes: "a key of value 0 does not match",
    EmptyTextPasses: "a key whose text has no labels does not match",
    FirstLabelOnly: "only the first label of a text goes out",
    NextPlaceByOne: "after a key the place moves by one byte",
    WalkPassesWhole: "all bytes that begin a key pass at once if no key matches",
    LowestBytesMatch: "a label above 255 matches the byte that is its lowest",
    BytesAreSigned: "bytes above 127 are labels with all high bits set",
    // Goods entries: the form of a table, and its check.
    TableBeforeImage: "the checker tests version and length before 1 to 12",
    TablePasses12: "a table is accepted with an image that 12 refuses",
    NoLastOffset: "a table has V offsets instead of V+1",
    TableSumIn32Bits: "the length of the offsets is computed in 32 bits",
    OffsetsLittleEndian: "the offsets of a table are read little-endian",
    RestMayBeCut: "what follows the offsets need not be whole entries",
    FirstOffsetFree: "the first offset is not compared with 0",
    OffsetsMayFall: "the checker accepts offsets that fall",
    LastOffsetFree: "the last offset is not compared with the entry count",
    BeyondBeforeMalformed: "the checker tests 27 before 26",
    CheckTakesV: "the checker accepts a value that is V",
    TableForEachPair: "the checker takes the number of pairs less one as the highest value",
    TableBytesCounted: "the checker counts the bytes of the entries",
    // Goods entries: the lookup.
    EntriesTest13First: "the lookup of entries tests 13 before 1 to 8",
    EntriesTest9To12: "the lookup of entries tests 9 to 12 too",
    FormBeforeQuery: "the lookup of entries tests version and length before 13",
    BeyondBeforeForm: "the lookup of entries tests 27 before version and length",
    LookupTakesV: "the lookup of entries accepts a value that is V",
    NoValueIsValue0: "27 is tested with value 0 for a query that has no value",
    LookupTestsAllOffsets: "the lookup of entries tests all offsets",
    FallingPairIsEmpty: "a falling pair bounds an empty part",
    PairNotCompared: "the pair is not compared with the entries",
    PairStartCompared: "only the first offset of the pair is compared with the entries",
    PassingPairIsCut: "a part that passes the entries is cut",
    LastEntryPasses: "a part that ends with the last entry passes the entries",
    BeyondTellsValue: "27 tells that the query has a value",
    EmptyPartNoValue: "an empty part is told as no value",
    PartBytesCounted: "the bytes of a part are counted, not its entries",
    FirstInBytes: "the place of the first entry is told in bytes",
    EmptyPartHasOffset: "the place of an empty part is told as its offset",
    FirstWrittenByRefusal: "a refused lookup of entries writes a place",
    FirstLeftWithoutValue: "without a value no place is written",
    FirstClearsOthers: "the words behind the place are cleared",
    // Typing positions: refusals, the place.
    PositionTests9To12: "a typing position tests 9 to 12 too",
    RefusedPushCounts: "a refused push counts its label",
    RefusedBackCounts: "a refused taking-back takes a label back",
    RefusalBeginsAnew: "a refusal begins a fresh position",
    PlaceNotCompared: "the place is not compared with N",
    PlaceMayBeN: "a place that is N is in the image",
    FailedMovesAnywhere: "with a failed label the place is not compared with N",
    OutsideBeginsAnew: "a place that is not below N begins a fresh position",
    Slot0IsNoPlace: "a step that reaches slot 0 fails",
    RootBySlot: "nothing is taken back at slot 1",
    RootByParent: "nothing is taken back at a slot whose parent is 0",
    // Typing positions: labels that fail, labels that only count.
    GoodPlaceAnswered: "after a failed label the last good place is answered",
    FailedLabelNotCounted: "a label that fails is not counted",
    LaterLabelsNotCounted: "labels after a failed one are not counted",
    FailedLabelLosesPlace: "taking back a failed label leads to no labels",
    FailedBackMovesUp: "taking back a failed label takes back the one before it too",
    PositionPastTheLimit: "labels beyond the limit of a key are answered",
    PositionBelowLimit: "the last label that a key may have is not answered",
    PastTheLimitNotCounted: "labels beyond the limit of a key are not counted",
    LabelsCountTo254: "the 255th label is not counted",
    LabelsCountTo256: "the 256th label is counted",
    FullListShifts: "the 256th label is counted in place of the first one",
    FullListBeginsAnew: "the 256th label begins the count anew",
    BackAtNoneWraps: "taking back at no labels leads to 255 labels",
    // The key list.
    KeyLimit32767: "a count of 32,768 is refused",
    OneLabelTooMany: "a key may have one label more than allowed",
    CutBeforeLength: "labels cut short are seen before a length above the limit",
    ScalarBeforeCut: "a label that is no scalar is seen before labels cut short",
    SurrogateInKey: "a surrogate in a key passes",
    EqualKeysAccepted: "equal keys pass",
    BytesMayBeLeftOver: "bytes left over pass",
    // Building.
    KeysCounted: "a label counts once in each key that contains it",
    NeighboursCountOnce: "equal labels next to each other in a key count once",
    TiesByLargerLabel: "among equal frequencies the larger label goes first",
    LabelLimit4094: "4,095 distinct labels are refused",
    PlacedBeforeCounted: "refusal 22 is tested before 20",
    WorkLimit3: "3 work words are enough",
    SlotForEachWord: "each work word is a slot",
    Slot1IsFree: "slot 1 is free, as its parent is 0",
    BaseFrom1: "bases are tried from 1",
    LargestBase: "the largest base is taken",
    BreadthFirst: "siblings are placed breadth first",
    WorkLeftByRefusal: "work is not cleared after a refusal",
    WorkClearedBy21: "work is cleared after 21",
    OutputWantsSpareByte: "output of exactly the image's length is refused",
    OutputTouchedBy23: "refusal 23 leaves part of an image",
    OutputBehindCleared: "output past the image is cleared",
    // The listing program.
    LongInputBuilt: "input past 32,768 bytes is built",
    LowerCaseLabels: "labels are printed in lower case",
    FourDigitLabels: "labels are printed with leading zeros",
}
