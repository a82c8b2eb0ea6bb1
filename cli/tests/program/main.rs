//! The program, run on images in folders of their own.

mod areas;
mod check;
mod commands;
mod deep;
mod desk;
mod files;
mod folder;
mod folders;
mod listing;
mod lost;
mod map;
mod moves;
mod records;
mod refusals;
mod replaced;
mod reserved;
mod writes;
