//! What neighbours said last of each key, for as long as it counts.

use super::wire::Node;
use std::collections::BTreeMap;

/// How long an offer counts after it was heard, in milliseconds.
const LIFE: u64 = 180_000;

#[derive(Clone, Copy, Debug, PartialEq, Eq, PartialOrd, Ord)]
pub struct Source {
    pub port: u8,
    pub neighbour: Node,
}

/// How good an offer is. The order puts the better one first.
pub trait Metric: Ord + Copy {
    fn is_dead(&self) -> bool;
    fn one_more(&self) -> Self;
}

#[derive(Clone, Copy, Debug)]
pub(super) struct Offer<M> {
    pub(super) source: Source,
    pub(super) metric: M,
    pub(super) heard: u64,
}

impl<M> Offer<M> {
    fn counts(&self, now: u64) -> bool {
        now.saturating_sub(self.heard) < LIFE
    }
}

#[derive(Debug)]
pub struct Full;

#[derive(Debug)]
pub struct Offers<K, M> {
    most: usize,
    count: usize,
    /// No offer was heard before this moment.
    oldest: u64,
    by_key: BTreeMap<K, Vec<Offer<M>>>,
}

impl<K: Ord + Copy, M: Metric> Offers<K, M> {
    pub fn new(most: usize) -> Self {
        Offers {
            most,
            count: 0,
            oldest: u64::MAX,
            by_key: BTreeMap::new(),
        }
    }

    /// Replaces the offer of this key and source. A dead metric takes it out.
    pub fn hear(&mut self, key: K, source: Source, metric: M, now: u64) -> Result<(), Full> {
        let held = self.by_key.get_mut(&key);
        if metric.is_dead() {
            if let Some(offers) = held {
                let before = offers.len();
                offers.retain(|offer| offer.source != source);
                self.count -= before - offers.len();
                if offers.is_empty() {
                    self.by_key.remove(&key);
                }
            }
            return Ok(());
        }
        let offer = Offer {
            source,
            metric,
            heard: now,
        };
        if let Some(offers) = held {
            if let Some(old) = offers.iter_mut().find(|old| old.source == source) {
                *old = offer;
            } else if self.count < self.most {
                offers.push(offer);
                self.count += 1;
            } else {
                return Err(Full);
            }
        } else if self.count < self.most {
            self.by_key.insert(key, vec![offer]);
            self.count += 1;
        } else {
            return Err(Full);
        }
        self.oldest = self.oldest.min(now);
        Ok(())
    }

    /// Takes out each offer that counts no more.
    pub fn age(&mut self, now: u64) {
        if now.saturating_sub(self.oldest) < LIFE {
            return;
        }
        let (mut count, mut oldest) = (0, u64::MAX);
        self.by_key.retain(|_, offers| {
            offers.retain(|offer| offer.counts(now));
            count += offers.len();
            oldest = offers
                .iter()
                .map(|offer| offer.heard)
                .fold(oldest, u64::min);
            !offers.is_empty()
        });
        self.count = count;
        self.oldest = oldest;
    }

    fn best_of(offers: &[Offer<M>], now: u64) -> Option<(Source, M)> {
        offers
            .iter()
            .filter(|offer| offer.counts(now))
            .min_by_key(|offer| (offer.metric, offer.source))
            .map(|offer| (offer.source, offer.metric))
    }

    /// The best of the offers of this key that count.
    pub fn best(&self, key: &K, now: u64) -> Option<(Source, M)> {
        Self::best_of(self.by_key.get(key)?, now)
    }

    /// Each offer that counts, by key and source, and whether it is the best of its key.
    pub(super) fn standing(&self, now: u64) -> Vec<(K, Offer<M>, bool)> {
        let mut all = Vec::new();
        for (key, offers) in &self.by_key {
            let best = Self::best_of(offers, now).map(|(source, _)| source);
            let first = all.len();
            let counting = offers.iter().filter(|offer| offer.counts(now));
            all.extend(counting.map(|offer| (*key, *offer, Some(offer.source) == best)));
            all[first..].sort_by_key(|(_, offer, _)| offer.source);
        }
        all
    }

    /// Each key that has a best, with its best, by key.
    pub fn bests(&self, now: u64) -> impl Iterator<Item = (K, Source, M)> + '_ {
        self.by_key.iter().filter_map(move |(key, offers)| {
            let (source, metric) = Self::best_of(offers, now)?;
            Some((*key, source, metric))
        })
    }
}
