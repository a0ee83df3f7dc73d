"""`mm serve`: a page for a browser in which you edit, run and look at programs, and the small web server that gives it.

`http` takes requests off the network and knows nothing of programs, `server` says which requests there are, `asked`
reads what one asks for, `child` carries it out in a process of its own with limits, `deeds` has what can be asked,
and `shelf` the examples, lessons and exercises. The page is `page.html` with its style and scripts."""
