//! Time: a thread sleeps until the next timer is due.
use super::{Hold, Hub};
use crate::shell::{Hold as _, Shell};

impl Hub {
    /// What the clock's thread does.
    pub(crate) fn keep_time(&self) {
        loop {
            let mut hold = self.hold();
            if hold.state.closing {
                return;
            }
            if hold.state.due == 0 {
                hold.state.due = hold.state.board.due();
            }
            let due = hold.state.due;
            let left = self.tick.begins(due).saturating_sub(self.begun.elapsed());
            if left.is_zero() {
                hold.state.due = 0;
                if hold.advance(self.tick.last(self.begun.elapsed()).max(due)).is_err() {
                    return; // there is no room for more time
                }
                continue;
            }
            let Hold { state, woken } = hold;
            debug_assert!(woken.is_empty());
            if due == u64::MAX {
                drop(self.clock.wait(state));
            } else {
                drop(self.clock.wait_timeout(state, left));
            }
        }
    }
}

#[cfg(test)]
mod tests {
    use crate::shell::{Hold, Shell};
    use crate::{max_active, Workqueues};
    use std::time::Duration;

    #[test]
    fn the_clock_goes_on_with_ticks_of_any_length() -> crate::Result<()> {
        for tick in [Duration::MAX, Duration::from_secs(1 << 40), Duration::from_nanos(1)] {
            let all = Workqueues::builder().queue("a", max_active(1)).tick(tick).build()?;
            let item = all.queue("a")?.item(|_| ())?;
            std::thread::sleep(Duration::from_millis(50)); // the clock knows of no timer
            assert!(item.queue_delayed(Duration::from_secs(1))?);
            assert!(item.is_pending() && !all.clock.as_ref().unwrap().is_finished());
            assert!(item.modify(Duration::ZERO)?);
            item.flush_timeout(Duration::MAX)?;
            all.shutdown()?;
        }
        Ok(())
    }

    /// As after a long time in which no timer was set.
    #[test]
    fn time_is_brought_up_at_once() -> crate::Result<()> {
        let all = Workqueues::builder().tick(Duration::from_nanos(1)).queue("a", max_active(1)).build()?;
        assert_eq!(all.hub.hold().advance(5 << 32)?, 5 << 32);
        all.shutdown()
    }
}
