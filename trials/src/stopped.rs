//! What a call may leave that can stop in the middle: which pairs have moved, which is moving, and
//! which stayed. And which calls go on in another way if an allocation fails.

use crate::batch::Batch;
use crate::kind::Kind;
use crate::model::pairs::Pairs;
use crate::model::Model;
use crate::record::Record;
use crate::words::Reply;

/// Whether a removal can fail.
pub fn removals_can_fail(kind: &Kind) -> bool {
    kind.has_large_keys() || kind.has_groups()
}

// Whether a call is an append, or an extension by all of some pairs, that inserts few pairs one by one
// and takes them back if one fails. The pairs are then those from before it, but the nodes need not
// be.
fn takes_back(model: &Model, record: &Record) -> bool {
    let come = match (record.family(), record.member()) {
        (8, 1) => model.there.len(),
        (8, 9 | 10) => {
            let pairs = model.turns(record.a, record.b, record.c);
            Pairs::gathered(model.kind, pairs).len()
        }
        (13, 3 | 4) => Pairs::gathered(model.kind, Batch::of(record).pairs()).len(),
        _ => return false,
    };
    !removals_can_fail(&model.kind) && come < model.here.len() / 16
}

/// Whether a call is a removal of a range that removes the pairs one by one if an allocation fails.
/// It then succeeds, and the pairs are those after a call without a failure, but the nodes need not
/// be.
pub fn goes_on(model: &Model, record: &Record) -> bool {
    let is_removal = (record.family(), record.member()) == (8, 4) && !model.kind.is_shards();
    is_removal && !removals_can_fail(&model.kind)
}

/// Whether a call can stop in the middle, or leaves other nodes if it fails.
pub fn can_stop(model: &Model, record: &Record) -> bool {
    let (family, member) = (record.family(), record.member());
    match family {
        8 if !model.kind.is_shards() => matches!(member, 0 | 3) || takes_back(model, record),
        13 if member == 2 => removals_can_fail(&model.kind),
        13 => takes_back(model, record),
        _ => false,
    }
}

/// A model, and what a call left and replied.
struct Stop<'a> {
    model: &'a Model,
    record: &'a Record,
    reply: &'a Reply,
}

/// What a model is after a call that stopped. An error says what is not as it may be.
pub fn after(model: &Model, record: &Record, reply: &Reply) -> Result<Model, String> {
    let stop = Stop {
        model,
        record,
        reply,
    };
    let member = record.member();
    if takes_back(model, record) {
        return stop.taken_back();
    }
    if reply.len == 0 {
        // A key, or a list of them, was not made.
        let is_listed = record.family() == 13 || record.family() == 8 && member == 0;
        let takes_memory = model.kind.has_large_keys() || is_listed;
        return stop.is_well(takes_memory, "there are no words", model.clone());
    }
    match (record.family(), member) {
        (13, _) => stop.removed(),
        (_, 0) => stop.extended(),
        _ => stop.retained(),
    }
}

impl Stop<'_> {
    fn is_well(&self, is_well: bool, error: &str, after: Model) -> Result<Model, String> {
        if is_well {
            Ok(after)
        } else {
            Err(error.to_string())
        }
    }

    // The words of the reply must be these.
    fn has(&self, words: &[u64], after: Model) -> Result<Model, String> {
        let error = format!("the reply has not the words {words:?}");
        self.is_well(self.reply.has(words), &error, after)
    }

    // Nothing has come. The reply has no words or, of a call that reports what was there before, those
    // of a call of which no request fails.
    fn taken_back(&self) -> Result<Model, String> {
        let whole = self.model.clone().answer(self.record).unwrap_or_default();
        let words = if self.reply.len == 0 {
            Vec::new()
        } else {
            whole.words
        };
        self.has(&words, self.model.clone())
    }

    // So many keys of a batch are removed as the first word says. All behind these in the slice is as
    // it was.
    fn removed(&self) -> Result<Model, String> {
        let mut after = self.model.clone();
        let keys = Batch::of(self.record).keys();
        let words = after.remove_first(&keys, self.reply.word(0) as usize);
        self.has(&words, after)
    }

    // The pair, or the key of a set, at a place of the reply.
    fn pair_at(&self, place: usize) -> (u64, u64) {
        let kind = self.model.kind;
        let end = place + kind.key_words();
        let words: Vec<u64> = (place..end).map(|place| self.reply.word(place)).collect();
        let value = if kind.is_set() {
            0
        } else {
            self.reply.word(end)
        };
        (kind.key_of(&words), value)
    }

    // The pairs before the one in hand have come.
    fn extended(&self) -> Result<Model, String> {
        let (record, back) = (self.record, self.pair_at(0));
        let mut after = self.model.clone();
        for pair in self.model.turns(record.a, record.b, record.c) {
            if pair == back && after.here.get(pair.0).is_none() {
                return self.has(&self.model.pair(back), after);
            }
            after.here.put(pair.0, pair.1);
        }
        Err(format!("{back:?} was not to come"))
    }

    // Nothing has changed, or all pairs that stay come back and the map is empty.
    fn retained(&self) -> Result<Model, String> {
        let (model, record) = (self.model, self.record);
        let mut after = model.clone();
        if self.reply.word(0) == 0 {
            return self.has(&[0], after);
        }
        let mut words = vec![1];
        for pair in model.here.all() {
            if model.stays(record, pair) {
                words.extend(model.pair(pair));
            }
        }
        after.here = Pairs::new(model.kind);
        self.has(&words, after)
    }
}
