//! Tasks of carrying parcels.

use super::sketch::{Sketch, Step};
use super::{Case, Costs, Dice, Order};

/// Parcels carried by a truck in each city and by planes between the cities' first places.
pub struct Logistics {
    cities: usize,
    places: usize,
    planes: usize,
    parcels: usize,
}

impl Logistics {
    /// The fact that a city's truck is at one of its places.
    fn truck_at(&self, city: usize, place: usize) -> usize {
        city * self.places + place
    }

    /// The fact that a plane is at a city.
    fn plane_at(&self, plane: usize, city: usize) -> usize {
        self.cities * self.places + plane * self.cities + city
    }

    /// The first fact of a parcel.
    fn parcel(&self, parcel: usize) -> usize {
        let carriers = self.cities + self.planes;
        self.plane_at(self.planes, 0) + parcel * (self.cities * self.places + carriers)
    }

    /// The fact that a parcel is at a place of a city.
    fn parcel_at(&self, parcel: usize, city: usize, place: usize) -> usize {
        self.parcel(parcel) + city * self.places + place
    }

    /// The fact that a parcel is in a carrier: trucks by city, then planes.
    fn parcel_in(&self, parcel: usize, carrier: usize) -> usize {
        self.parcel(parcel) + self.cities * self.places + carrier
    }

    /// The steps that move a carrier between any two of its places.
    fn moves(&self, places: &[usize]) -> Vec<Step> {
        let mut steps = vec![];
        for &from in places {
            for &to in places.iter().filter(|&&to| to != from) {
                steps.push(Step::new(&[from], &[to]).clearing(&[from]));
            }
        }
        steps
    }

    /// The steps that load and unload a parcel where its carrier is.
    fn loads(&self, carrier_there: usize, parcel_there: usize, parcel_in: usize) -> [Step; 2] {
        [
            Step::new(&[carrier_there, parcel_there], &[parcel_in]).clearing(&[parcel_there]),
            Step::new(&[carrier_there, parcel_in], &[parcel_there]).clearing(&[parcel_in]),
        ]
    }

    /// All steps with one parcel.
    fn steps_with(&self, parcel: usize) -> Vec<Step> {
        let mut steps = vec![];
        for city in 0..self.cities {
            for place in 0..self.places {
                let truck = self.truck_at(city, place);
                let there = self.parcel_at(parcel, city, place);
                steps.extend(self.loads(truck, there, self.parcel_in(parcel, city)));
            }
        }
        for plane in 0..self.planes {
            for city in 0..self.cities {
                let there = self.parcel_at(parcel, city, 0);
                let inside = self.parcel_in(parcel, self.cities + plane);
                steps.extend(self.loads(self.plane_at(plane, city), there, inside));
            }
        }
        steps
    }

    /// All steps.
    fn steps(&self) -> Vec<Step> {
        let mut steps = vec![];
        for city in 0..self.cities {
            let places: Vec<usize> = (0..self.places).map(|p| self.truck_at(city, p)).collect();
            steps.extend(self.moves(&places));
        }
        for plane in 0..self.planes {
            let cities: Vec<usize> = (0..self.cities).map(|c| self.plane_at(plane, c)).collect();
            steps.extend(self.moves(&cities));
        }
        steps.extend((0..self.parcels).flat_map(|parcel| self.steps_with(parcel)));
        steps
    }

    /// The task with trucks, planes and parcels at random places.
    pub fn case(&self, costs: Costs, order: Order, seed: u64) -> Case {
        let mut dice = Dice(seed);
        let (mut start, mut goal) = (vec![], vec![]);
        for city in 0..self.cities {
            start.push(self.truck_at(city, dice.below(self.places)));
        }
        for plane in 0..self.planes {
            start.push(self.plane_at(plane, dice.below(self.cities)));
        }
        for parcel in 0..self.parcels {
            start.push(self.parcel(parcel) + dice.below(self.cities * self.places));
            goal.push(self.parcel(parcel) + dice.below(self.cities * self.places));
        }
        let sketch = Sketch {
            facts: self.parcel(self.parcels),
            steps: self.steps(),
            start,
            goal,
        };
        sketch.into_case("logistics", costs, order, seed)
    }
}

/// A country of cities with as many places each, and parcels; two planes, or one for two cities.
pub fn parcels(cities: usize, places: usize, parcels: usize) -> Logistics {
    Logistics {
        cities,
        places,
        planes: (cities - 1).min(2),
        parcels,
    }
}
