// The same program is the page's and the worker's: a worker has no document.
import { openPage } from './page.js';
import { serve } from './workshop.js';

if (typeof document === 'undefined') serve(self);
else {
  openPage().catch((error) => {
    document.getElementById('said').textContent = `This browser cannot run the page: ${error.message}. It needs WebAssembly and DecompressionStream.`;
    throw error;
  });
}
