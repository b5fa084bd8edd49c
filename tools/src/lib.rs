//! Conveniences around the proved planner and judge: sheets and lists as text, charts, explanations.
//! Nothing here is proved, and nothing proved leans on it.

pub mod answers;
pub mod chart;
pub mod command;
pub mod compare;
pub mod decode;
pub mod encode;
pub mod explain;
pub mod fault;
pub mod json;
pub mod layout;
pub mod lexer;
pub mod list;
pub mod log;
pub mod meaning;
pub mod model;
pub mod notation;
pub mod note;
pub mod report;
pub mod rules;
pub mod shell;
pub mod similar;
mod syntax;
pub mod warnings;
