"""The commands of Boxhumilwa: what they share, a module for each subject."""
