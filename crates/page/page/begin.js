// Where a script draws, the text itself is hidden until it is asked for. Where none may run, or it fails before all is drawn, the
// text stands there as it is.
document.documentElement.className = "drawn";
addEventListener("error", () => {
  if (!window.plcPage) document.documentElement.className = "";
});
