"""The lab's server: it runs the programs and hands their words to the page."""
