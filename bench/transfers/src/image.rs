//! The proved queue on an image whose words are traced.

use crate::proved::delete_min::Popped;
use crate::proved::{fresh_image, level_queue};
use crate::traced::{Area, Memory};
use independent::image::need;
use independent::run::Queue;

pub struct Image(Memory<u64>);

impl Image {
    pub fn fresh(n: u64) -> Image {
        let mut image = Memory::new(need(n));
        fresh_image::make_fresh(image.traced(), n as usize);
        Image(image)
    }

    pub fn areas(&self) -> Vec<Area> {
        vec![self.0.area()]
    }
}

impl Queue for Image {
    fn decrease(&mut self, id: u64, key: u64) {
        level_queue::inner_decrease(self.0.traced(), id, key);
    }

    fn delete(&mut self, id: u64) {
        level_queue::inner_delete(self.0.traced(), id);
    }

    fn delete_min(&mut self) -> Option<(u64, u64)> {
        match level_queue::inner_delete_min(self.0.traced()) {
            Popped::Min { id, key, .. } => Some((id, key)),
            Popped::Empty { .. } => None,
        }
    }
}

#[cfg(test)]
mod tests {
    use super::*;
    use independent::image::{inner_fresh, Taking};
    use independent::run::OnImage;
    use independent::workload::{self, play};

    /// The sources are the proved ones still: after every call the answer and
    /// every word are those of the independent queue.
    #[test]
    fn every_word_is_as_the_rules_say() {
        for list in workload::all(256) {
            let mut image = Image::fresh(list.n);
            let mut words = vec![0; need(list.n)];
            inner_fresh(&mut words, list.n);
            for (number, step) in list.steps.iter().enumerate() {
                let step = std::slice::from_ref(step);
                let mut other = OnImage {
                    image: &mut words,
                    taking: Taking::Either,
                };
                let context = format!("{}, call {number}", list.name);
                assert_eq!(play(step, &mut image), play(step, &mut other), "{context}");
                let found = image.0.traced();
                assert!(
                    (0..words.len()).all(|at| found[at] == words[at]),
                    "{context}"
                );
            }
        }
    }
}
