// Old browsers read this, too. Where the page's own script can't be read, the sentence on what is needed is shown.
document.documentElement.className = "begun";
window.onerror = function () {
  document.documentElement.className = "";
};
