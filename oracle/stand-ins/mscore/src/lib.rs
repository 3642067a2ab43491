//! Stand-in for the crate `mscore`: a frame with the fields that the compared functions read.
pub mod timstof {
    pub mod frame {
        #[derive(Clone, Debug, Default)]
        pub struct ImsFrame {
            pub intensity: Vec<f64>,
        }

        #[derive(Clone, Debug, Default)]
        pub struct TimsFrame {
            pub frame_id: i32,
            pub scan: Vec<i32>,
            pub tof: Vec<i32>,
            pub ims_frame: ImsFrame,
        }
    }
}
