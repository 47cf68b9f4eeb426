'use strict';
(function () {
    const rows = Array.from(document.querySelectorAll('details.row'));
    const lanes = Array.from(document.querySelectorAll('button.lane'));
    const quiet = document.getElementById('quiet');
    const accepted = document.getElementById('accepted');
    let chosen = null;

    function show() {
        for (const row of rows) {
            const other = chosen !== null && !row.dataset.touched.split(' ').includes(chosen);
            const tick = quiet.checked && row.classList.contains('ticks');
            const refused = accepted.checked && row.classList.contains('refused');
            row.hidden = other || tick || refused;
        }
        for (const lane of lanes) {
            lane.classList.toggle('chosen', lane.dataset.lane === chosen);
        }
    }

    function openAll(open) {
        for (const row of rows) {
            row.open = open;
        }
    }

    function goToPlace() {
        const place = location.hash.startsWith('#event-') && document.getElementById(location.hash.slice(1));
        const row = place && place.closest('details');
        if (row) {
            row.hidden = false;
            row.open = true;
            row.scrollIntoView({ block: 'center' });
        }
    }

    for (const lane of lanes) {
        lane.addEventListener('click', function () {
            chosen = chosen === lane.dataset.lane ? null : lane.dataset.lane;
            show();
        });
    }
    quiet.addEventListener('change', show);
    accepted.addEventListener('change', show);
    document.getElementById('open').addEventListener('click', () => openAll(true));
    document.getElementById('close').addEventListener('click', () => openAll(false));
    document.querySelector('.controls').hidden = false;
    window.addEventListener('hashchange', goToPlace);
    goToPlace();
})();
