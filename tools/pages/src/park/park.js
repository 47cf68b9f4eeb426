'use strict';
(function () {
    const data = JSON.parse(document.getElementById('data').textContent);
    const bays = data.over.length;
    const carChoice = document.getElementById('car');
    const stationChoice = document.getElementById('station');
    const cars = Array.from(document.querySelectorAll('#plan .car'));
    const stations = Array.from(document.querySelectorAll('#plan .station'));
    const rows = Array.from(document.querySelectorAll('#times .row, #cars tbody tr'));
    const heat = document.getElementById('heat');
    let most = 30;
    let car = 0;
    let station = 0;

    function classOf(over) {
        const at = data.limits.findIndex((limit) => over < limit);
        return at < 0 ? data.limits.length : at;
    }

    function octets(digits) {
        return digits.match(/../g).map((pair) => parseInt(pair, 16) - data.reference);
    }

    function middle(part) {
        const box = part.getBBox();
        return [box.x + box.width / 2, box.y + box.height / 2];
    }

    function showPlan() {
        stations.forEach(function (part, bay) {
            const over = data.over[car][bay];
            part.setAttribute('class', 'station class' + classOf(over) + (bay === station ? ' chosen' : ''));
            part.querySelector('text').textContent = over + ' dB';
        });
        cars.forEach((part, bay) => part.classList.toggle('chosen', bay === car));
        rows.forEach((row) => row.classList.toggle('chosen', Number(row.dataset.car) === car));
        const from = middle(cars[car].querySelector('rect'));
        const to = middle(stations[station].querySelector('rect'));
        document.getElementById('pair').setAttribute('d', 'M' + from.join(' ') + 'L' + to.join(' '));
        const cell = document.getElementById('cell');
        const side = Number(heat.dataset.cell);
        cell.setAttribute('x', Number(heat.dataset.margin) + station * side - 0.5);
        cell.setAttribute('y', Number(heat.dataset.margin) + car * side - 0.5);
    }

    function part(name, attributes, text) {
        const made = document.createElementNS('http://www.w3.org/2000/svg', name);
        for (const [key, value] of Object.entries(attributes)) {
            made.setAttribute(key, value);
        }
        made.textContent = text || '';
        return made;
    }

    function x(group) {
        return 46 + 9.6 * group;
    }

    function y(value) {
        return 262 - 238 / most * Math.max(-1, Math.min(most, value));
    }

    function axes(picture) {
        for (let value = 0; value <= most; value += 10) {
            picture.append(part('path', { class: 'axis', d: 'M46 ' + y(value) + 'H594' }));
            picture.append(part('text', { class: 'left', x: 40, y: y(value) + 4 }, value + ' dB'));
        }
        for (const number of [1, 10, 20, 30, 40, 50, 58]) {
            picture.append(part('text', { class: 'middle', x: x(number - 1), y: 282 }, number));
        }
        picture.append(part('text', { class: 'middle', x: 320, y: 297 }, 'carrier group'));
        for (const value of [10, 20]) {
            picture.append(part('path', { class: 'limit', d: 'M46 ' + y(value) + 'H594' }));
        }
    }

    function line(values) {
        return values.map((value, group) => x(group).toFixed(1) + ' ' + y(value).toFixed(1)).join('L');
    }

    function showGroups(heard) {
        const picture = document.getElementById('groups');
        const highest = heard ? Math.max(...octets(heard[3])) : 30;
        most = Math.max(30, 10 * Math.ceil(highest / 10));
        picture.replaceChildren();
        axes(picture);
        if (!heard) {
            picture.append(part('text', { class: 'middle missing', x: 320, y: 130 }, 'this station has reported nothing to this car'));
            return;
        }
        const [mean, least, greatest] = heard.slice(1).map(octets);
        const back = greatest.map((value, group) => x(group).toFixed(1) + ' ' + y(value).toFixed(1)).reverse().join('L');
        picture.append(part('path', { class: 'band', d: 'M' + line(least) + 'L' + back + 'Z' }));
        picture.append(part('path', { class: 'mean', d: 'M' + line(mean) }));
    }

    function told(heard) {
        const over = data.over[car][station];
        const joined = data.joined[car] === station ? ' The car has joined this station.' : '';
        const line = 'The line weakens it by ' + over + ' dB over the reference of ' + data.reference + ' dB.';
        if (!heard) {
            return line + ' No report was sent: the station heard no sounds of it, or took no request of it.' + joined;
        }
        const mean = octets(heard[1]);
        const total = mean.reduce((sum, value) => sum + value, 0) / mean.length;
        const wide = Math.max(...octets(heard[3]).map((value, group) => value - octets(heard[2])[group]));
        return line + ' Reported: ' + total.toFixed(1) + ' dB over it, from ' + heard[0] + ' sounds; the values of a group lie up to ' +
            wide + ' dB apart.' + joined;
    }

    function choose(newCar, newStation) {
        car = newCar;
        station = newStation;
        carChoice.value = car;
        stationChoice.value = station;
        const heard = data.heard[car + ',' + station];
        showPlan();
        showGroups(heard);
        document.getElementById('told').textContent = told(heard);
    }

    function chooseCar(bay) {
        choose(bay, data.joined[bay] < 0 ? bay : data.joined[bay]);
    }

    function onChoice(made, act) {
        made.addEventListener('click', act);
        made.addEventListener('keydown', function (event) {
            if (event.key === 'Enter' || event.key === ' ') {
                event.preventDefault();
                act();
            }
        });
    }

    cars.forEach((made, bay) => onChoice(made, () => chooseCar(bay)));
    stations.forEach((made, bay) => onChoice(made, () => choose(car, bay)));
    rows.forEach((row) => row.addEventListener('click', () => chooseCar(Number(row.dataset.car))));
    carChoice.addEventListener('change', () => choose(Number(carChoice.value), station));
    stationChoice.addEventListener('change', () => choose(car, Number(stationChoice.value)));
    heat.addEventListener('click', function (event) {
        const place = new DOMPoint(event.clientX, event.clientY).matrixTransform(heat.getScreenCTM().inverse());
        const at = (value) => Math.floor((value - Number(heat.dataset.margin)) / Number(heat.dataset.cell));
        if (at(place.x) >= 0 && at(place.x) < bays && at(place.y) >= 0 && at(place.y) < bays) {
            choose(at(place.y), at(place.x));
        }
    });
    const wrong = data.joined.findIndex((joined, bay) => joined >= 0 && joined !== bay);
    chooseCar(Math.max(0, wrong));
})();
