// Shows what a library has of a work in each element of any page whose attribute data-openurl has an OpenURL:
//   <div data-openurl="rft.issn=2434-561X&amp;rft.date=1996"></div>
//   <script src="fulltext.js" data-resolver="https://resolver.library.example/resolve"></script>
// The node escapes every text, and its fragments have neither scripts nor forms nor styles.
const resolver = document.currentScript.dataset.resolver;

async function show(element) {
  const query = new URLSearchParams(element.dataset.openurl);
  query.set("format", "fragment");
  try {
    const response = await fetch(`${resolver}?${query}`);
    if (response.ok) {
      element.innerHTML = await response.text();
    }
  } catch (error) {
    console.warn("the resolver is not reached", error);
  }
}

document.querySelectorAll("[data-openurl]").forEach(show);
