//! A score as it is written down, and the bytes of its file.
//!
//! Nothing here judges a score: a damaged one is written out just as a sound
//! one is, so that a vector can be "a sound file with this one damage".

/// "kind (0 action, 1 group), synchrony (0 loose, 1 tight), error word
/// (0 local, 1 global, 2 partial, 3 causal), part (0 to 15), delay (u32,
/// 0 to 5,040,000), event (u16), last (u16)".
#[derive(Clone)]
pub struct Item {
    pub kind: u8,
    pub synchrony: u8,
    pub error: u8,
    pub part: u8,
    pub delay: u32,
    pub event: u16,
    pub last: u16,
}

/// An action; `event` is 0 within a group.
pub fn action(event: u16, part: u8, message: u16) -> Item {
    Item { kind: 0, synchrony: 0, error: 0, part, delay: 0, event, last: message }
}

/// A loose local group over the `last` items that follow; `event` is 0 within
/// a group.
pub fn group(event: u16, part: u8, last: u16) -> Item {
    Item { kind: 1, synchrony: 0, error: 0, part, delay: 0, event, last }
}

impl Item {
    pub fn after(mut self, delay: u32) -> Item {
        self.delay = delay;
        self
    }

    pub fn words(mut self, synchrony: u8, error: u8) -> Item {
        self.synchrony = synchrony;
        self.error = error;
        self
    }
}

/// "start and length (u16) in the text".
#[derive(Clone)]
pub struct Message {
    pub start: u16,
    pub length: u16,
}

#[derive(Clone)]
pub struct Score {
    pub events: Vec<u32>,
    pub items: Vec<Item>,
    pub messages: Vec<Message>,
    pub text: Vec<u8>,
}

impl Score {
    /// The labels are laid end to end, each message "where the one before
    /// ends".
    pub fn new(events: &[u32], items: &[Item], labels: &[&[u8]]) -> Score {
        let mut messages = Vec::new();
        let mut text = Vec::new();
        for label in labels {
            messages.push(Message { start: text.len() as u16, length: label.len() as u16 });
            text.extend_from_slice(label);
        }
        Score { events: events.to_vec(), items: items.to_vec(), messages, text }
    }

    /// The same score with one damage.
    pub fn with(&self, damage: impl FnOnce(&mut Score)) -> Score {
        let mut score = self.clone();
        damage(&mut score);
        score
    }

    /// "Little-endian; a table of contents first, then the bodies without
    /// gaps."
    pub fn bytes(&self) -> Vec<u8> {
        let mut file = Vec::new();
        let mut offset = 32;
        let bodies = [
            (self.events.len(), 4),
            (self.items.len(), 12),
            (self.messages.len(), 4),
            (self.text.len(), 1),
        ];
        for (count, size) in bodies {
            file.extend_from_slice(&(offset as u32).to_le_bytes());
            file.extend_from_slice(&(count as u32).to_le_bytes());
            offset += count * size;
        }
        for duration in &self.events {
            file.extend_from_slice(&duration.to_le_bytes());
        }
        for item in &self.items {
            file.extend_from_slice(&[item.kind, item.synchrony, item.error, item.part]);
            file.extend_from_slice(&item.delay.to_le_bytes());
            file.extend_from_slice(&item.event.to_le_bytes());
            file.extend_from_slice(&item.last.to_le_bytes());
        }
        for message in &self.messages {
            file.extend_from_slice(&message.start.to_le_bytes());
            file.extend_from_slice(&message.length.to_le_bytes());
        }
        file.extend_from_slice(&self.text);
        file
    }
}

/// The file with u32 words overwritten, each at its byte.
pub fn patched(file: &[u8], patches: &[(usize, u32)]) -> Vec<u8> {
    let mut file = file.to_vec();
    for &(at, value) in patches {
        file[at..at + 4].copy_from_slice(&value.to_le_bytes());
    }
    file
}
