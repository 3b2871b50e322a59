//! A leaderboard: players by their points, the best first. A key is points and player, so that
//! equal points are neighbours.
use sweep_bptree_proved::{OutOfMemory, Set};

type Board = Set<(u64, usize)>;

fn score(
    board: &mut Board,
    points: &mut [u64],
    player: usize,
    more: u64,
) -> Result<(), OutOfMemory> {
    board.remove(&(points[player], player))?;
    points[player] += more;
    board.insert((points[player], player))?;
    Ok(())
}

fn show(board: &Board, points: &[u64], player: usize) {
    for (place, (most, best)) in board.iter().rev().take(3).enumerate() {
        println!("{}. player {best}: {most}", place + 1);
    }
    let smaller = board.rank(&(points[player], player)).unwrap_or_else(|rank| rank);
    println!("player {player} is number {} of {}", board.len() - smaller, board.len());
}

fn main() -> Result<(), OutOfMemory> {
    let mut board = Set::new()?;
    let mut points = [0; 7];
    for (player, more) in [(1, 120), (2, 90), (3, 250), (4, 60), (5, 310), (6, 250), (4, 200)] {
        score(&mut board, &mut points, player, more)?;
    }
    show(&board, &points, 3);
    println!("{} players have 100 to 250 points", board.range_len((100, 0)..(251, 0)));
    board.remove(&(points[5], 5))?;
    show(&board, &points, 3);
    Ok(())
}
