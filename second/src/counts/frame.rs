//! The character times of one frame, as a list.

use crate::controller::{Controller, Pins};
use crate::setting::Setting;

/// What is counted of a character time: its memory address, the undelayed
/// picture fact, and the levels on the pins.
#[derive(Clone, Copy, PartialEq, Eq, Debug)]
pub struct CharacterTime {
    pub memory_address: u16,
    pub picture: bool,
    pub pins: Pins,
}

impl CharacterTime {
    fn shown_by(controller: &Controller) -> Self {
        CharacterTime {
            memory_address: controller.memory_address(),
            picture: controller.facts().picture,
            pins: controller.pins(),
        }
    }
}

/// A whole frame and the character time that follows it.
#[derive(Clone, PartialEq, Eq, Debug)]
pub struct Frame {
    pub times: Vec<CharacterTime>,
    /// The first character time of the frame after this one.
    pub next_first: CharacterTime,
}

impl Frame {
    /// The frame that begins with the setting's reset: the list opens with the
    /// character 0 which the reset arrived at and closes with the last one
    /// before the scan begins a new frame, as the field counter tells.
    pub fn first_of(setting: &Setting) -> Self {
        let mut controller = setting.controller();
        let field = controller.scan().field;
        let mut times = Vec::new();
        while controller.scan().field == field {
            times.push(CharacterTime::shown_by(&controller));
            controller.clock();
        }
        Frame {
            times,
            next_first: CharacterTime::shown_by(&controller),
        }
    }
}
