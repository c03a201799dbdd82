//! Memories over a board whose power and flash operations can be made to fail, and images of boards.

use crate::error::Error;
use crate::memory::{Memory, Over};
use crate::setup::Setup;
use crate::sys;

impl Setup {
    /// How many bytes the image of a board of this setup has.
    ///
    /// # Errors
    ///
    /// `Setup` or `Policy`.
    pub fn image_size(&self) -> Result<usize, Error> {
        let mut size = 0;
        // SAFETY: the pointers are to a setup and a number of this call's.
        Error::check(unsafe { sys::envy_image_size(&self.numbers(), &mut size) })?;
        Ok(size as usize)
    }

    /// The shape that an image names, with this setup's policy, limit and mark.
    ///
    /// # Errors
    ///
    /// A number of its own for each way in which bytes are no image.
    pub fn of_image(&self, image: &[u8]) -> Result<Setup, Error> {
        let mut found = self.numbers();
        // SAFETY: the slice has so many bytes, and the setup is this call's.
        Error::check(unsafe { sys::envy_image_shape(image.as_ptr(), image.len(), &mut found) })?;
        Ok(Setup::of(&found))
    }
}

impl Memory {
    /// Makes a memory of zeros over a new board, whose power can return `lives` times.
    ///
    /// # Errors
    ///
    /// `Setup` or `Policy`; `NoMemory`.
    pub fn open_simulation(setup: &Setup, lives: u32) -> Result<Memory, Error> {
        let memory = Memory::empty(Over::Simulation);
        // SAFETY: the handle is this memory's, and holds none; the setup is this call's.
        Error::check(unsafe { sys::envy_open_sim(memory.handle(), &setup.numbers(), lives) })?;
        Ok(memory)
    }

    /// Opens the memory that an image is, over a new board whose power can return `lives` times.
    ///
    /// # Errors
    ///
    /// Those of `open_simulation`; a number of its own for each way in which bytes are no image of this setup; what was found.
    pub fn restore(setup: &Setup, lives: u32, image: &[u8]) -> Result<Memory, Error> {
        let memory = Memory::empty(Over::Simulation);
        let numbers = setup.numbers();
        // SAFETY: the handle is this memory's, and holds none; the setup is this call's, and the slice has so many bytes.
        Error::check(unsafe { sys::envy_restore(memory.handle(), &numbers, lives, image.as_ptr(), image.len()) })?;
        Ok(memory)
    }

    /// Writes the image of the memory's board over the first of these bytes.
    ///
    /// # Errors
    ///
    /// `Off`; `NoMemory`; a number of its own if there is no room.
    pub fn save(&self, image: &mut [u8]) -> Result<(), Error> {
        // SAFETY: the memory is open, and the slice has so many bytes.
        self.check(unsafe { sys::envy_save(self.handle(), image.as_mut_ptr(), image.len()) })
    }

    /// Plans a failure of power in the k-th device operation from now. What the operation leaves is drawn from `drawn`.
    ///
    /// # Errors
    ///
    /// `OtherBoard`, as of each call below: the memory stands over something else. A number of its own if `k` is 0.
    pub fn arm_cut(&self, k: u32, drawn: u64) -> Result<(), Error> {
        // SAFETY: the memory is open.
        self.check(unsafe { sys::envy_arm_cut(self.handle(), k, drawn) })
    }

    /// Plans that the k-th flash operation from now fails.
    ///
    /// # Errors
    ///
    /// As [`arm_cut`](Memory::arm_cut).
    pub fn arm_bad(&self, k: u32, drawn: u64) -> Result<(), Error> {
        // SAFETY: the memory is open.
        self.check(unsafe { sys::envy_arm_bad(self.handle(), k, drawn) })
    }

    /// Cuts power between two operations.
    ///
    /// # Errors
    ///
    /// `OtherBoard`; `Off`: power is off already.
    pub fn cut_now(&self) -> Result<(), Error> {
        // SAFETY: the memory is open.
        self.check(unsafe { sys::envy_cut_now(self.handle()) })
    }

    /// Asks for power, and restarts the memory: transactions are undone, and the words are those that were committed. No
    /// transaction is borrowed meanwhile.
    ///
    /// # Errors
    ///
    /// `OtherBoard`; `Powered`: power is on; `Off`: it failed again; `Dead`: no life is left.
    pub fn revive(&mut self) -> Result<(), Error> {
        // SAFETY: the memory is open.
        self.check(unsafe { sys::envy_revive(self.handle()) })
    }

    /// How often power can still return.
    ///
    /// # Errors
    ///
    /// `OtherBoard`.
    pub fn lives(&self) -> Result<u32, Error> {
        let mut left = 0;
        // SAFETY: the memory is open, and the number is this call's.
        self.check(unsafe { sys::envy_lives(self.handle(), &mut left) })?;
        Ok(left)
    }
}
