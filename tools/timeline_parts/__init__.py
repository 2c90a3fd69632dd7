"""What tools/timeline draws: page.py makes the page of page.html, page.css and page.js; picture.py draws an SVG; colours.py has the
colours of both."""
