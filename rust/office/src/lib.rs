//! The lease office's tool `sheet`: tables as spreadsheets save them (`csv`), lists of a sheet (`list`) and how far from best they are
//! (`best`), what is said in plain text (`words`), as CSV (`list_csv`) and as a page to print (`page`), and the command line (`tool`).
pub mod best;
pub mod csv;
pub mod list;
pub mod list_csv;
pub mod page;
pub mod tool;
pub mod words;
