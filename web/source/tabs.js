// The views of the machine as tabs. The arrows step through the events, so each tab is reached by Tab.

import { find } from './elements.js';

export class Tabs {
  constructor(views, changed) {
    this.views = views;
    this.view = views[0];
    for (const view of views) {
      find(`tab-${view}`).addEventListener('click', () => {
        this.choose(view);
        changed();
      });
    }
  }

  choose(wanted) {
    this.view = this.views.includes(wanted) ? wanted : this.views[0];
    for (const view of this.views) {
      const isChosen = view === this.view;
      find(`tab-${view}`).setAttribute('aria-selected', String(isChosen));
      find(`panel-${view}`).hidden = !isChosen;
    }
  }
}
