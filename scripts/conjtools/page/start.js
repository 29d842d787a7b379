// All is there: the page is shown.
takeState();
update();
updateObjects();
