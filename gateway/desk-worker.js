// Keeps a copy of the desk's files in the browser, for a start while the gateway is away. What the gateway serves comes first.
'use strict';
const FILES = ['/desk', '/desk.js', '/desk-words.js'];
addEventListener('install', event => event.waitUntil(caches.open('desk').then(copies => copies.addAll(FILES))));
addEventListener('fetch', event => {
  if (!FILES.includes(new URL(event.request.url).pathname)) return;
  event.respondWith((async () => {
    const copies = await caches.open('desk');
    try {
      const response = await fetch(event.request);
      if (response.ok) await copies.put(event.request, response.clone());
      return response.ok ? response : await copies.match(event.request) ?? response;
    } catch { return copies.match(event.request) }
  })());
});
