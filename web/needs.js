// Says what this browser lacks of what the page needs. It is written for browsers of all ages.
(function () {
  var lacking = [];
  function has(what, is) { if (!is) lacking.push(what); }
  has('modules', 'noModule' in document.createElement('script'));
  has('dialogs', typeof window.HTMLDialogElement === 'function');
  has('random keys', window.crypto && window.crypto.getRandomValues);
  has('URL.canParse', window.URL && window.URL.canParse);
  has('Object.hasOwn', Object.hasOwn);
  has('Array.findLast', Array.prototype.findLast);
  if (lacking.length === 0) return;
  var place = document.getElementById('lacking');
  place.textContent = 'This browser is too old for this page. It lacks: ' + lacking.join(', ') + '.';
  place.hidden = false;
}());
