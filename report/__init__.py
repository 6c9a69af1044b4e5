"""`sas-report TASK PLAN..` writes one HTML file that shows plans. All that is judged in it is what
`sas` printed. Names are arbitrary bytes; they enter a page as text alone."""
