// Included by the judge and by the sample: the crate as published, and the rooted one.
#[allow(dead_code)]
mod published {
    use mlx9064x as subject;
    include!("subject.rs");
}

#[allow(dead_code)]
mod rooted {
    use mlx9064x_rooted as subject;
    include!("subject.rs");
}
